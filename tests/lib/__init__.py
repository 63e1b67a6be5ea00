"""What the scripts of tests/ and bench/ share. A file here is a module; one in tests/ is a script, but for those of the prover.

- Trials: trials makes them, model_trials compares a program with a model on what is drawn, arguments and places say with what and
  where; case_files reads cases, preloaded, refusing and struck_calls make libraries that are loaded before the C library.
- Plain models, written from the documents: lorawan (frames and ciphers), plain_book, plain_saved, plain_server, starved_server,
  plain_journal, plain_restarts, gateway_model and downlink_queue.
- What is drawn: drawn_settings, drawn_traffic, drawn_turns, drawn_books and drawn_datagrams.
- `airbook serve` at work: serving starts it, serve_lines reads its lines, worked_run is its worked run, refused_states what it
  refuses. control_lines has control datagrams, and kept_queues is a trial with payloads that wait over kills.
- Forwarders that are played: played_forwarders, played_gateway, strict_gateway and rough_gateway; flooding, bad_forwarders,
  failing_disk and held_payloads are trials with them.
- Many lives of one server: served_lives, soaked_lives, struck_lives, grown_lives and soaked_memory; queueing_client has payloads
  queued meanwhile; lawful_lives and lawful_queues say what holds.
- The program's own words: told_version and manual_page; written_pages has the parts of documents that scripts write.

What tests/gate.py and tests/edits.py import (prover, machine, edit_files and others) stays in tests/: the verdicts on edits are
kept with a sum of those files.
"""
