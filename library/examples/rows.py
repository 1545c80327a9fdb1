"""Writes the rows of a query on a document, as the program does, with the library in this process.

    python3 rows.py failed.query auth.log
"""
import sys
from pathlib import Path

import rematch

query = rematch.Query(Path(sys.argv[1]).read_bytes())
document = Path(sys.argv[2]).read_bytes()
for row in query.spans(document).tolist():
    spans = zip(query.variables, row[::2], row[1::2])
    print(' '.join('%s=-' % name if start < 0 else '%s=%d-%d' % (name, start, end) for name, start, end in spans) or '()')
