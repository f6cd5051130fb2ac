#!/usr/bin/env python3
"""Cases for the sheet and letters libraries and what is wanted for them, made by tests/sheets.py and tests/letters.py.

  python3 tests/byte_cases.py            compare: exit 1 where the stored files differ from what this script makes
  python3 tests/byte_cases.py --write    write crates/byte_cases/stdin and stdout anew
  python3 tests/byte_cases.py --list     the cases, one to a line, in the order of the file

A case is six bytes and what follows them: its kind, how many bytes follow (in three bytes), and the length of the output to
write to (in two); high bytes first.
"""
import sys
from pathlib import Path

sys.dont_write_bytecode = True
import letters
import sheets

HERE = Path(__file__).resolve().parent.parent / 'crates' / 'byte_cases'


def main():
    made = list(sheets.cases()) + list(letters.cases())
    stdin = b''.join(c.bytes() for c in made)
    stdout = ''.join('\n'.join(c.wanted()) + '\n' for c in made).encode()
    if '--list' in sys.argv:
        for i, c in enumerate(made):
            print(i, c.name)
    elif '--write' in sys.argv:
        (HERE / 'stdin').write_bytes(stdin)
        (HERE / 'stdout').write_bytes(stdout)
        print('%d cases, %d bytes in, %d out' % (len(made), len(stdin), len(stdout)))
    else:
        same = (HERE / 'stdin').read_bytes() == stdin and (HERE / 'stdout').read_bytes() == stdout
        print('%d cases, %s' % (len(made), 'as stored' if same else 'the stored files differ'))
        sys.exit(0 if same else 1)


main()
