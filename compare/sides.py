"""The two sides, ours and the Rust's: asking them, comparing what they answer, and telling whether a job is in the comparison domain."""
import os
import subprocess
import threading

import jobs

HERE = os.path.dirname(os.path.abspath(__file__))
OURS = os.path.join(HERE, 'driver')
RUST = os.path.join(HERE, 'rust', 'driver')

OUR_PORTAL = 65536      # and three more
RUST_PORTAL = 0x8000    # likewise, in 16 bits


class Trouble(Exception):
    """A side that can't be asked, or that ended before its time."""


class Side:
    """A driver that runs and answers one question after the other."""

    def __init__(self, command, mode, *words):
        self.name = ' '.join([os.path.relpath(command), mode])
        try:
            self.process = subprocess.Popen([command, mode, *words], stdin=subprocess.PIPE, stdout=subprocess.PIPE)
        except OSError as e:
            raise Trouble('%s: %s' % (self.name, e))
        self.rest = b''

    def _send(self, texts):
        try:
            for text in texts:
                self.process.stdin.write(text)
            self.process.stdin.flush()
        except (BrokenPipeError, ValueError):
            pass                                # the reader says what is wrong

    def ask(self, texts, end):
        """One answer for each text, without the bytes that end it. Texts are sent while answers are read."""
        sender = threading.Thread(target=self._send, args=(texts,), daemon=True)
        sender.start()
        answers = []
        parts = [self.rest]
        while len(answers) < len(texts):
            piece = self.process.stdout.read1(1 << 20)
            if not piece:
                raise Trouble('%s ended with status %d after %d of %d answers' %
                              (self.name, self.process.wait(), len(answers), len(texts)))
            parts.append(piece)
            if end in piece or end in parts[-2][-len(end):] + piece[:len(end)]:
                *whole, rest = b''.join(parts).split(end)
                answers += whole
                parts = [rest]
        self.rest = b''.join(parts)
        sender.join()
        if len(answers) > len(texts) or self.rest:
            raise Trouble('%s answered more than it was asked' % self.name)
        return answers

    def meshes(self, texts):
        return self.ask(texts, b'\ndone\n')

    def lines(self, texts):
        return self.ask(texts, b'\n')

    def close(self):
        self.process.stdin.close()
        status = self.process.wait()
        if status != 0:
            raise Trouble('%s ended with status %d' % (self.name, status))


def both(first, second):
    """Two askings at the same time: what each gives, or the trouble of one."""
    found = [None, None]

    def run(i, f):
        try:
            found[i] = f()
        except Trouble as e:
            found[i] = e

    threads = [threading.Thread(target=run, args=(i, f)) for i, f in enumerate((first, second))]
    for thread in threads:
        thread.start()
    for thread in threads:
        thread.join()
    for answers in found:
        if isinstance(answers, Trouble):
            raise answers
    return found


# ------------------------------------------------------------------------------------------------------------ comparing

def links_alike(ours, rust, polygons):
    """Two n lines: the same links, portals compared by side. The Rust's marks can be told from polygon numbers as long as there are at
    most 0x8000 polygons; above that a mark may stand for either."""
    ours, rust = ours.split()[1:], rust.split()[1:]
    if len(ours) != len(rust):
        return False
    for a, b in zip(ours, rust):
        if not (a.isdigit() and b.isdigit()):
            return False
        a, b = int(a), int(b)
        mark = RUST_PORTAL <= b < RUST_PORTAL + 4
        good = {b} if not mark or polygons > RUST_PORTAL else set()
        if mark:
            good.add(b - RUST_PORTAL + OUR_PORTAL)
        if a not in good:
            return False
    return True


def difference(ours, rust):
    """None, or what the first difference is, and the two lines."""
    if ours == rust:
        return None
    a, b = ours.split(b'\n'), rust.split(b'\n')
    if a[0][:2] != b'ok' or b[0][:2] != b'ok':
        alike = {b'7': b'err InvalidContour', b'5': b'err TooManyVertices'}
        words = a[0].split()
        if len(words) == 3 and words[0] == b'refused' and alike.get(words[1]) == rust:
            return None
        return 'refusal', a[0], b[0]
    if a[0] != b[0]:
        return 'count', a[0], b[0]
    polygons = int(a[0].split()[2])
    for x, y in zip(a[1:], b[1:]):
        if x == y:
            continue
        kinds = x[:1], y[:1]
        if kinds == (b'n', b'n'):
            if links_alike(x, y, polygons):
                continue
            return 'link', x, y
        if kinds == (b'v', b'v'):
            return 'vertex', x, y
        if kinds == (b'p', b'p'):
            u, v = x.split(), y.split()
            return ('region' if u[1] != v[1] else 'code' if u[2] != v[2] else 'corner'), x, y
        return 'text', x, y
    if len(a) != len(b):
        return 'text', b'%d lines' % len(a), b'%d lines' % len(b)
    return None


def refused_contour(answer):
    """The contour that a build was refused for, or None."""
    words = answer.split()
    return int(words[2]) if words[:2] == [b'refused', b'7'] and words[2].isdigit() else None


# ------------------------------------------------------------------------------------------------------------ the domain

ODD = 'no mesh of triangles for nvp 3'


def outside_by_numbers(job):
    """Why a job's numbers lie outside the comparison domain, or None."""
    if not 3 <= job.nvp <= 12:
        return 'nvp'
    if len(job.contours) > jobs.MOST_CONTOURS:
        return 'contours'
    if job.v() > jobs.MOST_V:
        return 'V'
    for _, _, vertices in job.contours:
        for x, _, z, flag in vertices:
            if x > jobs.MOST or z > jobs.MOST:
                return 'coordinate'
            if flag:
                return 'flag'
    return None


def triangles_outside(contours, mesh):
    """Why contours lie outside the domain by their triangles, or None. `mesh` is our answer for nvp 3, where nothing is merged: a
    contour of n vertices has its n - 2 triangles there, contour after contour."""
    corners = [line.split()[3:] for line in mesh.split(b'\n') if line[:1] == b'p']
    counts = [len(vertices) - 2 for _, _, vertices in contours if len(vertices) >= 3]
    if mesh[:2] != b'ok' or len(corners) != sum(counts) or any(len(c) != 3 for c in corners):
        return ODD
    at = 0
    for count in counts:
        sides = set()
        for a, b, c in corners[at:at + count]:
            sides.add((a, b))
            sides.add((b, c))
            sides.add((c, a))
        if len(sides) != 3 * count:
            return 'side twice'
        at += count
    return None


def outside(these, meshes, ours):
    """For each job why it lies outside the comparison domain, or None; ODD if the answers for nvp 3 can't be right. `meshes` are our
    answers for nvp 3. Where a contour has no ear those before it are looked at: neither side gets to those behind it."""
    reasons = [outside_by_numbers(job) for job in these]
    again = []
    for i, (job, mesh) in enumerate(zip(these, meshes)):
        if reasons[i] is not None:
            continue
        contour = refused_contour(mesh)
        if contour is None:
            reasons[i] = triangles_outside(job.contours, mesh)
        else:
            again.append((i, contour))
    for (i, contour), mesh in zip(again, ours.meshes([these[i].text(3, contour) for i, contour in again])):
        reasons[i] = triangles_outside(these[i].contours[:contour], mesh)
    return reasons
