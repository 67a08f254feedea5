"""Manual pages and completions, made of the pages and parsers that tell their words: for
`tools/install`."""
