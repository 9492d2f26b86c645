"""No function of the library makes an array that could hold a label record (02, request 4): a record goes from the inputs to its place
in the lent output part with no array in between. Read off the sources: an array that is not known to hold something else may hold
bytes. Arrays of two named elements are let by, since the two sides travel so and two bytes hold no tag; so are the patterns of a slice,
which make no array, and the bytes of a number that the library reads."""
import pathlib
import re
import unittest

ROOT = pathlib.Path(__file__).resolve().parent.parent
# an array's type, or so many of one element; and elements one by one
REPEATED = re.compile(r'\[\s*([^\[\];]+?)\s*;[^\[\];]+\]')
LISTED = re.compile(r'(?<!#)\[\s*([^\[\];]+?),?\s*\]')
# elements, and types of elements, that are no bytes
OTHERS = re.compile(r'(?:\d+|)(?:usize|u64|u16)|Ends \{[^{}]*\}|&.*')
# what constants have: the label of a name, and the operators' spellings
CONSTANTS = re.compile(r'(?s)\bconst \w+:.*?;\n')
# the bytes of a number, each an element of a part
NUMBERS = re.compile(r'\bfrom_le_bytes\(\[\s*\w+(?:,\s*\w+){0,7},?\s*\]\)')


def crates_below(top):
    """A crate and all that it uses."""
    uses = {}
    for line in (ROOT / 'crates.txt').read_text(encoding='utf-8').splitlines():
        name, colon, others = line.split('#')[0].partition(':')
        if colon:
            uses[name.split()[0]] = others.split()
    found, open_ = set(), [top]
    while open_:
        name = open_.pop()
        if name in uses and name not in found:
            found.add(name)
            open_ += uses[name]
    return sorted(found)


def may_hold_bytes(listed):
    elements = re.split(r',\s*', re.sub(r'\([^()]*\)', '', listed))
    if any(re.fullmatch(r'(?:\w+ @ )?\.\.', element) for element in elements):
        return False  # a pattern of a slice
    return len(elements) > 2 or any(element[:1].isdigit() for element in elements)


def byte_arrays(source):
    """The arrays of a source that may hold bytes, by their elements or their types."""
    code = CONSTANTS.sub('', re.sub(r'(?s)//[^\n]*|⌜.*?⌝', '', source))
    code = re.sub(r'(?<=[\w\])])\[[^\[\]]*\]', '', code)  # an element of an array, or a part
    code = NUMBERS.sub('', code)
    repeated = [first for first in REPEATED.findall(code) if not OTHERS.fullmatch(first)]
    return repeated + [listed for listed in LISTED.findall(code) if may_hold_bytes(listed)]


class Arrays(unittest.TestCase):
    def test_library(self):
        crates = crates_below('nosingcatnip')
        self.assertIn('set_tags', crates)
        for crate in crates:
            for path in sorted((ROOT / 'crates' / crate / 'src').glob('*.rt')):
                with self.subTest(path=path.name, crate=crate):
                    self.assertEqual(byte_arrays(path.read_text(encoding='utf-8')), [])

    def test_found(self):
        for made in ('let mut work = [0u8; 512];', 'let mut work = [0; 512];', 'put(&mut [0u8; 512], rec)', 'let work: [u8; 2] = [1, 2];',
                     'let work = [b; 512];', 'let work = [7u8];', 'let work = [a, b, c];', 'let work = [rec[0], 0];',
                     'let n = put([rec[0], rec[1], rec[2]]);', 'let n = [rec[0], rec[1], &rec[2..]];'):
            with self.subTest(made=made):
                self.assertTrue(byte_arrays(f'fn f(rec: &[u8]) {{\n    {made}\n}}\n'))

    def test_passed_over(self):
        for other in ('let at = [0usize; 513];', 'let keys = [left, right];', 'let x = labels[0];', 'let y = &rec[1..3];',
                      'fn f(at: &mut [usize; 513], labels: [&[u8]; 2]) {', 'pub const A: [u8; 2] = [95, 95];',
                      'f(lists[0], at[0]); // [0u8; 2]', 'let [_, a, b, rest @ ..] = s else {',
                      'let n = u32::from_le_bytes([s[at], s[at + 1], s[at + 2], s[at + 3]]);',
                      'let mut table = [Ends {\n    first: n,\n    last: n,\n}; 1024];', 'let lists = [\n    first(a, b, &c),\n    second(d, e),\n];'):
            with self.subTest(other=other):
                self.assertEqual(byte_arrays(f'{other}\n'), [])
