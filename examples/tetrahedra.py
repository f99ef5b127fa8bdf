"""Sums over coloured tetrahedra by closed formulas (Kauffman and Lins, ch. 9), independent of the program, modulo a prime.

A text is a list of faces and one of tetrahedra. Closed manifolds are made of tetrahedra glued along their faces: those of one or two
tetrahedra are found by trying all gluings, and told by their homology. Run as: python3 examples/tetrahedra.py
"""

from itertools import permutations, product


def numbers(m, a, r):
    """Delta_0 to Delta_(2r), and the quantum factorials [0]! to [2r]!, where Delta_n is [n+1] times -1 to the power n."""
    inverse = pow(a, -1, m)
    loop = -(a * a + inverse * inverse) % m
    deltas = [1, loop]
    while len(deltas) <= 2 * r:
        deltas.append((loop * deltas[-1] - deltas[-2]) % m)
    factorials = [1]
    for n in range(1, 2 * r + 1):
        factorials.append(factorials[-1] * (-1) ** (n - 1) * deltas[n - 1] % m)
    return deltas, factorials


def admits(r, x, y, z):
    return (x + y + z) % 2 == 0 and x <= y + z and y <= z + x and z <= x + y and x + y + z <= 2 * r - 4


def theta(m, f, x, y, z):
    i, j, k = (x + y - z) // 2, (x + z - y) // 2, (y + z - x) // 2
    top = (-1) ** (i + j + k) * f[i + j + k + 1] * f[i] * f[j] * f[k]
    return top * pow(f[i + j] * f[j + k] * f[i + k], -1, m) % m


def tet(m, f, a, b, c, d, e, g):
    """The net with the vertices abc, aeg, bgd and cde."""
    sides = [(a + b + c) // 2, (a + e + g) // 2, (b + g + d) // 2, (c + d + e) // 2]
    rounds = [(a + b + d + e) // 2, (a + c + d + g) // 2, (b + c + e + g) // 2]
    factor = 1
    for s in sides:
        for t in rounds:
            factor = factor * f[t - s] % m
    for colour in (a, b, c, d, e, g):
        factor = factor * pow(f[colour], -1, m) % m
    total = 0
    for s in range(max(sides), min(rounds) + 1):
        low = 1
        for t in sides:
            low = low * f[s - t] % m
        for t in rounds:
            low = low * f[t - s] % m
        total = (total + (-1) ** s * f[s + 1] * pow(low, -1, m)) % m
    return factor * total % m


def sum_of(m, a, r, faces, tetrahedra):
    deltas, f = numbers(m, a, r)
    labels = sorted({label for item in faces + tetrahedra for label in item})
    total = 0
    for colours in product(range(r - 1), repeat=len(labels)):
        at = dict(zip(labels, colours))
        if not all(admits(r, *(at[label] for label in face)) for face in faces):
            continue
        weight = 1
        for colour in colours:
            weight = weight * deltas[colour] % m
        for t in tetrahedra:
            weight = weight * tet(m, f, *(at[label] for label in t)) % m
        for face in faces:
            weight = weight * pow(theta(m, f, *(at[label] for label in face)), -1, m) % m
        total = (total + weight) % m
    return total


Z = ([(1, 2, 3), (1, 5, 6), (2, 4, 6), (3, 4, 5)], [(1, 2, 3, 4, 5, 6)] * 2)


def count_of(r, faces):
    labels = sorted({label for face in faces for label in face})
    lists = product(range(r - 1), repeat=len(labels))
    return sum(all(admits(r, *(dict(zip(labels, colours))[label] for label in face)) for face in faces) for colours in lists)


# ---- glued tetrahedra: a gluing is a list of (t, face, u, map), where face f of t is opposite to its vertex f, and map takes its vertices to
# those of tetrahedron u

PAIRS = [(0, 1), (1, 2), (0, 2), (2, 3), (0, 3), (1, 3)]


def classes(elements, joins):
    least = {e: e for e in elements}
    for _ in elements:
        for x, y in joins:
            least[x] = least[y] = min(least[x], least[y])
    return least


def glued(count, gluing):
    """Vertices, oriented edges and faces of the tetrahedra up to the gluing."""
    ends = [(t, v) for t in range(count) for v in range(4)]
    vertices = classes(ends, [((t, v), (u, m[v])) for t, f, u, m in gluing for v in range(4) if v != f])
    arrows = [(t, v, w) for t in range(count) for v, w in permutations(range(4), 2)]
    joins = [((t, v, w), (u, m[v], m[w])) for t, f, u, m in gluing for v, w in permutations(range(4), 2) if f not in (v, w)]
    return vertices, classes(arrows, joins), [(t, f) for t, f, _, _ in gluing]


def text_of(count, gluing):
    """Faces and tetrahedra by edge labels; nothing where an edge is glued to itself backwards or the Euler characteristic isn't 0."""
    vertices, arrows, faces = glued(count, gluing)
    if any(arrows[t, v, w] == arrows[t, w, v] for t, v, w in arrows):
        return None
    edges = sorted({min(arrows[t, v, w], arrows[t, w, v]) for t, v, w in arrows})
    if len(set(vertices.values())) - len(edges) + len(faces) - count != 0:
        return None
    label = {e: i + 1 for i, e in enumerate(edges)}

    def at(t, v, w):
        return label[min(arrows[t, v, w], arrows[t, w, v])]

    def sides(t, f):
        x, y, z = [v for v in range(4) if v != f]
        return (at(t, x, y), at(t, y, z), at(t, x, z))

    return [sides(t, f) for t, f in faces], [tuple(at(t, v, w) for v, w in PAIRS) for t in range(count)]


def homology(count, gluing):
    """The first homology of a gluing with one vertex, as its rank and its torsion: edges, with a relation for each face."""
    _, arrows, faces = glued(count, gluing)
    edges = sorted({min(arrows[t, v, w], arrows[t, w, v]) for t, v, w in arrows})
    rows = []
    for t, f in faces:
        x, y, z = [v for v in range(4) if v != f]
        row = [0] * len(edges)
        for v, w in ((x, y), (y, z), (z, x)):
            e = min(arrows[t, v, w], arrows[t, w, v])
            row[edges.index(e)] += 1 if arrows[t, v, w] == e else -1
        rows.append(row)
    diagonal = []
    while any(any(row) for row in rows):
        i, j = min(((i, j) for i, row in enumerate(rows) for j, x in enumerate(row) if x), key=lambda p: abs(rows[p[0]][p[1]]))
        rows = [row if k == i else [x - row[j] // rows[i][j] * y for x, y in zip(row, rows[i])] for k, row in enumerate(rows)]
        if any(row[j] for k, row in enumerate(rows) if k != i):
            continue
        pivot = rows[i][j]
        if any(x % pivot for x in rows[i]):
            for k in range(len(edges)):
                if k != j:
                    q = rows[i][k] // pivot
                    for row in rows:
                        row[k] -= q * row[j]
            continue
        diagonal.append(abs(pivot))
        rows.pop(i)
        rows = [[x for k, x in enumerate(row) if k != j] for row in rows]
        edges = edges[1:]
    return len(edges), sorted(d for d in diagonal if d > 1)


def gluings(count):
    """All ways to glue the faces in pairs, each against the orientation."""

    def extend(left, found):
        if not left:
            yield found
            return
        t, f = left[0]
        for u, g in left[1:]:
            rest = [side for side in left[1:] if side != (u, g)]
            own = [v for v in range(4) if v != f]
            for image in permutations([v for v in range(4) if v != g]):
                m = dict(zip(own, image))
                m[f] = g
                swaps = sum(m[v] > m[w] for v in range(4) for w in range(v + 1, 4))
                if swaps % 2 == 1:
                    yield from extend(rest, found + [(t, f, u, m)])

    yield from extend([(t, f) for t in range(count) for f in range(4)], [])


def is_joined(count, gluing):
    return len(set(classes(range(count), [(t, u) for t, _, u, _ in gluing]).values())) == 1


def closed_manifold(count, rank, torsion):
    """The first gluing of so many tetrahedra with one vertex and this homology."""
    for gluing in gluings(count):
        if is_joined(count, gluing) and text_of(count, gluing) and len(set(glued(count, gluing)[0].values())) == 1:
            if homology(count, gluing) == (rank, torsion):
                return gluing
    raise ValueError("no such manifold")


def with_new_vertex(count, gluing):
    """Tetrahedron 0 divided into four at a vertex inside: piece f has its face f, and the new vertex in the place of f."""
    piece = {0: 0, 1: count, 2: count + 1, 3: count + 2}

    def of(t, f):
        return piece[f] if t == 0 else t

    moved = [(of(t, f), f, of(u, m[f]), m) for t, f, u, m in gluing]
    # pieces f and g meet along the face that misses g in the first and f in the second: the new vertex stands for f in the first
    for f in range(4):
        for g in range(f + 1, 4):
            m = {v: v for v in range(4)}
            m[f], m[g] = g, f
            moved.append((piece[f], g, piece[g], m))
    return count + 3, moved


MANIFOLDS = [("S3", 1, 0, []), ("L(4,1)", 1, 0, [4]), ("L(3,1)", 2, 0, [3]), ("S1xS2", 2, 1, [])]

LEVELS = [(13, 2, 3), (17, 3, 4), (41, 2, 5), (73, 7, 6)]


def spelled(faces, tetrahedra):
    items = ["F[" + ",".join(map(str, face)) + "]" for face in faces] + ["T[" + ",".join(map(str, t)) + "]" for t in tetrahedra]
    return "TV[" + ",".join(items) + "]"


def rows():
    """Words, input and sum, of both triangulations of each manifold: the second has a vertex more, and N times the sum, where N is the
    sum of the squares of the Delta. Those with more than 65,536 colourings are left out, since the program refuses them."""
    for name, count, rank, torsion in MANIFOLDS:
        gluing = closed_manifold(count, rank, torsion)
        more, finer = with_new_vertex(count, gluing)
        for m, a, r in LEVELS:
            deltas, _ = numbers(m, a, r)
            n = sum(deltas[k] * deltas[k] for k in range(r - 1)) % m
            coarse, fine = sum_of(m, a, r, *text_of(count, gluing)), sum_of(m, a, r, *text_of(more, finer))
            assert fine == n * coarse % m, (name, m, a, r)
            for text, value in ((text_of(count, gluing), coarse), (text_of(more, finer), fine)):
                if (r - 1) ** len({label for face in text[0] for label in face}) <= 65536:
                    yield name, f"tv {m} {a} {r}", spelled(*text), value


if __name__ == "__main__":
    deltas, f = numbers(41, 2, 5)
    for colours in [(1, 1, 2), (2, 2, 2), (1, 2, 3)]:
        print("theta", colours, theta(41, f, *colours))
    for colours in [(1, 1, 2, 1, 1, 2), (2, 2, 2, 2, 2, 2)]:
        print("tet", colours, tet(41, f, *colours))
    print("admissible colourings", [count_of(r, Z[0]) for r in (3, 4, 5)])
    print("sums", sum_of(41, 2, 5, [], []), sum_of(13, 2, 3, *Z), sum_of(41, 2, 5, *Z))
    for name, words, text, value in rows():
        print(name, words, text, value)
