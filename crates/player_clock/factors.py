"""Prints the table of src/lib.rt: for each playback speed p from -128 to 127 the whole number e with
(2e-1)^64 <= 2^(1088+p) < (2e+1)^64 (SCOPE 13.2).

With --check it says whether the source has exactly this table.
"""
import pathlib
import re
import sys


def factors():
    """The factors rise with the speed, so each is looked for from the one before it on."""
    e = 0
    for p in range(-128, 128):
        while (2 * e + 1) ** 64 <= 2 ** (1088 + p):
            e += 1
        assert (2 * e - 1) ** 64 <= 2 ** (1088 + p)
        yield e


def in_source():
    """The numbers of the table as src/lib.rt has them, however they are laid out."""
    source = (pathlib.Path(__file__).parent / 'src' / 'lib.rt').read_text()
    listed = re.search(r'^const FACTORS: \[u32; 256\] = \[([\d,\s]*)\];$', source, re.M)
    return [int(e) for e in re.findall(r'\d+', listed[1])] if listed else []


if sys.argv[1:] == ['--check']:
    if in_source() != list(factors()):
        sys.exit('src/lib.rt has another table')
    print('256 factors')
else:
    print('const FACTORS: [u32; 256] = [\n' + ''.join('    %d,\n' % e for e in factors()) + '];')
