"""What `captures` reads of real logs: `lists` has maps and single images, `blocks` these images cut into blocks, `events` rows events with their images,
`logs` whole log files.

`told` counts what was seen, `values` holds a value against the server's, `texts` reads the server's own texts, `answered` cuts an answer to `rows` into its
images, and `replay` keeps tables as a log changes them.
"""
