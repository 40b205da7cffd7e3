"""The places that docs/DESIGN-PASS.md counts in crates/*/src, by its points. From the top: python3 tools/places.py [-v]"""
import glob
import re
import sys

POINTS = {
    "1a enums": r"^\s*(?:pub )?enum ",
    "1b flags and refusals as fields beside values": r"^\s*pub \w+: bool,|^\s*pub refusal: u32,",
    "1c numbers for kinds or refusals": r"^pub const (?:SUM|DIFFERENCE|PRODUCT|ADD|SUBTRACT|MULTIPLY|FUSED|EXACT|ROUNDED|SPECIAL): u32"
    r"|\breturn [1-9]\d*;|=> [1-9]\d*,$|\brefused\(\d+[,)]|\b16\b.*\{$|^\s*_ => (?:0|16),|\bmark: \w+, \d",
    "1d 0 for nothing, or for nothing wrong": r"^\s*(?:return )?0;?$|if (?:wrong|operation|got) [!=]= 0 \{|\btaken == 0",
    "2 twins": r"^(?:pub )?fn (?:choose\w*|nan_of\w*|add|sub|mul|add_short|walk|walk_short|put_byte|put_four|named\w*|near|with_rest|read|fill"
    r"|mark|replay|clear|larger|smaller|first|second)(?:<.*>)?\(",
    "3a loops that are no `for`": r"^\s*(?:while|loop)\b",
    "3b elements taken by an index that counts": r"\[(?:i|k|at|at \+ \d|i \+ \d)\]",
    "4 conversions and comparisons by hand": r"^(?:pub )?fn (?:numbers?|named\w*|wide|counted|refusal|refused|judged|code_of|is_refusal)\(",
    "5a sign, significand and exponent side by side": r"fn .*\b(?:sig|m|p): u64, (?:exp|e|i): u16",
    "5b buffer and place side by side": r"fn .*\(out: &mut \[u8\], at: usize",
    "5c rows and their number side by side": r"fn .*\(lines: &mut Rows, n: usize",
    "5d position, open line and total side by side": r"^\s*position: Position,$|fn .*position: Position, .*total",
    "5e the arrays of a list side by side": r"^\s*operations: &\[u32\],$",
    "6a a length or place held beside a buffer": r"^\s*pub (?:length|next): usize,",
    "6b parallel arrays": r"^\s*(?:xs|ys|counts): &\[u32\],$",
    "7 a switch on which step to run": r"^\s*match (?:operation|number|step|line\.step)\b.*\{",
}


def places(pattern):
    for path in sorted(glob.glob("crates/*/src/*.rt")):
        with open(path, encoding="utf-8") as lines:
            for number, line in enumerate(lines, 1):
                if not line.lstrip().startswith("//") and re.search(pattern, line.rstrip("\n")):
                    yield f"  {path}:{number}: {line.strip()}"


for name, pattern in POINTS.items():
    found = list(places(pattern))
    print(f"{len(found):4} {name}")
    if "-v" in sys.argv:
        print("\n".join(found))
