"""The graph of each block as an SVG, in layers: a transaction is a layer behind the last one that it waits for."""

from html import escape

WIDE, HIGH, ACROSS, DOWN = 150, 26, 60, 12
BLOCK_TOP, MARGIN = 30, 14


def blocks_of(lines):
    """The blocks, each as its number, its hash and its nodes: (number, label, numbers of those waited for)."""
    blocks = []
    for line in lines:
        words = line.split()
        if words[0] == "block":
            blocks.append((words[1], words[2], []))
        elif words[0] == "txn":
            nodes = blocks[-1][2]
            after = [int(word) for word in words[5:] if word != "none"]
            if not set(after) <= {number for number, _, _ in nodes}:
                raise ValueError(f"a transaction waits for one that isn't before it: {line[:80]}")
            nodes.append((int(words[1]), " ".join(words[1:4]), after))
        elif words[0] == "config":
            blocks[-1][2].append((1, line, []))
    return blocks


def layers_of(nodes):
    """The layers, each as numbers from top to bottom: at the mean height of those that each waits for."""
    depth, rows, layers = {}, {}, []
    for number, _, after in nodes:
        depth[number] = 1 + max((depth[earlier] for earlier in after), default=-1)
    for layer in range(max(depth.values(), default=-1) + 1):
        here = [(number, after) for number, _, after in nodes if depth[number] == layer]
        here.sort(key=lambda node: (sum(rows[earlier] for earlier in node[1]) / max(len(node[1]), 1), node[0]))
        layers.append([number for number, _ in here])
        rows.update({number: row for row, number in enumerate(layers[-1])})
    return layers


def block_svg(block, y):
    """The lines of a block's picture, its width and its height."""
    number, own_hash, nodes = block
    layers = layers_of(nodes)
    wide = max([WIDE] + [8 * len(label) + 16 for _, label, _ in nodes])
    at = {}
    for layer, numbers in enumerate(layers):
        for row, node in enumerate(numbers):
            at[node] = MARGIN + 8 + layer * (wide + ACROSS), y + BLOCK_TOP + row * (HIGH + DOWN)
    width = max(len(layers), 1) * (wide + ACROSS) - ACROSS + 16
    height = BLOCK_TOP + max([len(layer) for layer in layers] + [1]) * (HIGH + DOWN)
    out = [f'<rect class="block" x="{MARGIN}" y="{y}" width="{width}" height="{height}" rx="6" fill="#f4f4f4" stroke="#999"/>']
    out.append(f'<text x="{MARGIN + 8}" y="{y + 19}" font-weight="bold">block {number} {escape(own_hash[:8])}</text>')
    for node, _, after in nodes:
        for earlier in after:
            x1, y1 = at[earlier][0] + wide, at[earlier][1] + HIGH // 2
            x2, y2 = at[node][0], at[node][1] + HIGH // 2
            bend = ACROSS // 2
            out.append(f'<path class="edge" d="M{x1} {y1} C{x1 + bend} {y1} {x2 - bend} {y2} {x2 - 6} {y2}" fill="none" stroke="#555"/>')
            out.append(f'<path d="M{x2} {y2} l-8 -4 v8 z" fill="#555"/>')
    for node, label, after in nodes:
        x, top = at[node]
        waits = "after " + (" ".join(map(str, after)) or "none")
        out.append(f'<g class="node"><title>{escape(label)}, {waits}</title>')
        out.append(f'<rect x="{x}" y="{top}" width="{wide}" height="{HIGH}" rx="4" fill="#8ecae6" stroke="#333"/>')
        out.append(f'<text x="{x + 8}" y="{top + 17}">{escape(label)}</text></g>')
    return out, width, height


def svg(lines):
    """The lines of the picture, from the lines that `graph` prints."""
    body, y, widest = [], MARGIN, 0
    for block in blocks_of(lines):
        drawn, width, height = block_svg(block, y)
        body += drawn
        y += height + MARGIN
        widest = max(widest, width)
    head = f'<svg xmlns="http://www.w3.org/2000/svg" width="{widest + 2 * MARGIN}" height="{y}" font-family="monospace" font-size="12" style="background:white">'
    return [head] + body + ["</svg>"]
