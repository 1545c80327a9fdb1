"""The commands beside the program: rematch-to, rematch-cut, rematch-piece, rematch-play and rematch-serve.

What only they use stands here; queries, matches, documents and sessions are in the package around this one.
"""
