#!/usr/bin/env bash
# Hostile inputs, given to bin/dtman (`make build`): each byte of small blobs and overlays changed, each lexeme of sources deleted, doubled
# and moved, and shapes that could take long or much memory. It fails where an answer isn't as promised, or a shape takes too much.
set -euo pipefail
cd "$(dirname "$0")/../.."
[ -x bin/dtman ] || make build
status=0
python3 bench/hostile/changed_bytes.py || status=1
python3 bench/hostile/changed_lexemes.py || status=1
python3 bench/hostile/shapes.py || status=1
exit "$status"
