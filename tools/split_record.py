"""A record that marks one tree of a mesh and fills the cut with a zigzag; all displacements are 0 (docs/FORMATS.md)."""
import struct


def pack(numbers, bits):
    """Numbers of so many bits in bytes, from the top of each byte, spare bits 0."""
    count = 8 // bits
    rows = [numbers[i:i + count] for i in range(0, len(numbers), count)]
    return bytes(sum(n << (8 - bits * (k + 1)) for k, n in enumerate(row)) for row in rows)


def record(triangles, tree):
    """The record whose marked edges are those of the tree, pairs of vertices."""
    edges = sorted({tuple(sorted(side)) for a, b, c in triangles for side in ((a, b), (b, c), (c, a))})
    marked = {tuple(sorted(ends)) for ends in tree}
    count = 2 * len(marked) - 2
    codes = [2, 1] * (count // 2 - 1) + [2, 0]
    body = struct.pack(">BBI", 1, 1, count)
    body += pack([int(edge in marked) for edge in edges], 1) + pack(codes, 2) + bytes(12 * len(marked))
    return struct.pack(">I", len(body)) + body
