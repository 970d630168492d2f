"""NoFS from Python, for the scripts of tools/ and for other programs: `reader` reads an image by the proved reader, `client` reads and
writes one by frames, `format` and `pages` read the bytes of an image by docs/FORMAT.md alone, `lines` spells what a session answers."""
