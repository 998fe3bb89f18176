"""Morgazell for people: what the proved library says of captures, in words, pages and pictures.

Every fact comes from the library, asked through `archive`; the rest reads files, puts words to answers and draws."""
