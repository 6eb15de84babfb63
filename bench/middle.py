"""The middle of several runs of host/build/bench: the table of docs/PERFORMANCE.md, and with --svg its picture.

python3 bench/middle.py RUNS [--svg FILE]

RUNS has what the runs printed, one behind the other (docs/bench-runs.txt). Of each row the middle of our times, of plain C's and
of the ratios is printed, each for itself, and the lowest and highest ratio.
"""
import re
import statistics
import sys

ROW = re.compile(r'^(.{44}) +([\d.]+) (ns|us|ms) +([\d.]+) (?:ns|us|ms) +([\d.]+)$')
WIDTH, LEFT, RIGHT, TOP, STEP = 960, 290, 190, 76, 28


class Row:
    def __init__(self, name, unit):
        self.name, self.unit, self.ours, self.floor, self.ratios = name, unit, [], [], []

    def middle(self):
        return statistics.median(self.ours), statistics.median(self.floor), statistics.median(self.ratios)

    def times(self):
        ours, floor, _ = self.middle()
        digits = 2 if ours < 10 else 1
        return f'{ours:.{digits}f} {self.unit}', f'{floor:.{digits}f} {self.unit}'


def rows_of(path):
    rows = {}
    with open(path, encoding='utf-8') as h:
        for line in h:
            found = ROW.match(line.rstrip('\n'))
            if found:
                name, ours, unit, floor, ratio = found.groups()
                row = rows.setdefault(name.strip(), Row(name.strip(), unit))
                row.ours.append(float(ours))
                row.floor.append(float(floor))
                row.ratios.append(float(ratio))
    return [r for r in rows.values() if r.middle()[2] > 0]          # choosing is told beside the table


def axis(ratio):
    """Where a ratio stands on the picture's axis: powers of two at whole numbers, straight lines between them."""
    x = 0
    while ratio >= 2:
        ratio, x = ratio / 2, x + 1
    while ratio < 1:
        ratio, x = ratio * 2, x - 1
    return x + ratio - 1


def picture(rows, runs):
    places = [axis(r.middle()[2]) for r in rows]
    least, most = min(places + [0]), max(places + [1])
    scale = (WIDTH - LEFT - RIGHT) / (most - least)
    one, bottom = LEFT - least * scale, TOP + STEP * len(rows)
    height = bottom + 28
    text = [f'<svg xmlns="http://www.w3.org/2000/svg" width="{WIDTH}" height="{height}" viewBox="0 0 {WIDTH} {height}" '
            'font-family="sans-serif" font-size="13" fill="#222222">',
            f'<rect width="{WIDTH}" height="{height}" fill="#ffffff"/>',
            f'<text x="16" y="24" font-size="16">Time over that of plain C, the middle of {runs} runs (ordinary memory)</text>',
            '<text x="16" y="46" fill="#555555">1 is plain C with the same stores, write-backs and fences, a plain hash, a plain scan; '
            'each line doubles</text>']
    for power in range(int(most) + 1):
        x = one + power * scale
        text += [f'<line x1="{x:.1f}" y1="{TOP - 6}" x2="{x:.1f}" y2="{bottom}" stroke="{"#dddddd" if power else "#c04030"}"/>',
                 f'<text x="{x:.1f}" y="{bottom + 16}" text-anchor="middle" fill="#555555">{1 << power}</text>']
    for i, (row, place) in enumerate(zip(rows, places)):
        x, y = one + place * scale, TOP + STEP * i
        ours, floor = row.times()
        text += [f'<text x="{LEFT - 10}" y="{y + 15}" text-anchor="end">{row.name}</text>',
                 f'<rect x="{min(x, one):.1f}" y="{y}" width="{abs(x - one):.1f}" height="20" fill="#4878a8"/>',
                 f'<text x="{max(x, one) + 8:.1f}" y="{y + 15}">{row.middle()[2]:.2f} ({ours}, C {floor})</text>']
    return '\n'.join(text + ['</svg>\n'])


def main():
    if len(sys.argv) not in (2, 4) or (len(sys.argv) == 4 and sys.argv[2] != '--svg'):
        sys.exit('usage: python3 bench/middle.py RUNS [--svg FILE]')
    rows = rows_of(sys.argv[1])
    if not rows:
        sys.exit(f'{sys.argv[1]} has no run of bench')
    print('| what | ours | plain C | ratio | lowest and highest ratio |\n|---|---|---|---|---|')
    for r in rows:
        ours, floor = r.times()
        print(f'| {r.name} | {ours} | {floor} | {r.middle()[2]:.2f} | {min(r.ratios):.2f} to {max(r.ratios):.2f} |')
    if len(sys.argv) == 4:
        with open(sys.argv[3], 'w', encoding='utf-8') as h:
            h.write(picture(rows, len(rows[0].ratios)))


if __name__ == '__main__':
    main()
