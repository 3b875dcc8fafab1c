"""Checks what `./deferreds --json` tells, with what its journal tells (docs/JSON.md)."""
