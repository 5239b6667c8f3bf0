#!/usr/bin/env bash
# python.sh: the tests of the Python package over the libraries in target/lib, with the cases of the second implementation, by a
# Python that has NLTK if there is one; then its types, where mypy is installed. The last line is `N passed, M failed`.
set -euo pipefail
cd "$(dirname "$0")/.."
make -s libraries
cargo run --release --locked --quiet --package spireyerba-tests --example python_cases >target/python_cases.jsonl
python=python3
for other in python3 /usr/bin/python3; do
    if "$other" -c 'import nltk' 2>/dev/null; then
        python=$other
        break
    fi
done
if command -v mypy >/dev/null; then (cd python && mypy --strict spireyerba); else echo 'passed over, since there is no mypy: types'; fi
cd python
"$python" -B -m tests
