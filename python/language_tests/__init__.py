"""Tests of the language as `language.json` has it: what the program prints, the pages, and the schema of scripts."""
