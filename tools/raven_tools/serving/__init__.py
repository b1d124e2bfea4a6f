"""What the checks of the command `serve` do, each with servers of its own.

- `history` has the writes that were acknowledged, by etag, and what they leave up to any etag.
- `load` has the clients that write, read and query at once; `judging` compares what they were answered with the history.
- `slow` has clients that send nothing, little or too much; `ends` how a server ends; `kills` what is left if it is killed.
"""
