#!/usr/bin/env bash
# Holds the documents to the source: clauses, names, pages of crates and links.
cd "$(dirname "$0")/.." || exit 1
exec python3 tests/documents.py
