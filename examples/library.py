"""Seals and opens with a keyset file, or with one that is encrypted under a master:

    python3 examples/library.py KEYSET.json [MASTER.json]       with python/ in PYTHONPATH
"""
import sys
from pathlib import Path

import tinkey

texts = [Path(name).read_bytes() for name in sys.argv[1:]]
with tinkey.Aead.from_encrypted(*texts) if len(texts) == 2 else tinkey.Aead.from_json(*texts) as keys:
    sealed = keys.encrypt(b"attack at dawn", b"associated data")
    print(f"{len(sealed)} bytes, which open to {keys.decrypt(sealed, b'associated data').decode()!r}")
    try:
        keys.decrypt(sealed, b"other data")
    except tinkey.Refused as error:
        print(f"and with other associated data: {error}")
