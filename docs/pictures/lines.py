"""Lines for `intake` and what its replies hold: parts by number, words, whole runs."""
import os
import subprocess

TOP = os.path.dirname(os.path.dirname(os.path.dirname(os.path.abspath(__file__))))

# The parts below 2^64 in ascending order: value and exponents.
PARTS = sorted((2**a * 3**b, a, b) for a in range(64) for b in range(41) if 2**a * 3**b < 2**64)


def replies(lines):
    run = subprocess.run([os.path.join(TOP, "intake")], input="".join(line + "\n" for line in lines), capture_output=True, text=True, check=True)
    return run.stdout.split()


def points_in(numbers):
    """The points of part numbers in hexadecimal, four digits each, largest part first; the points smallest first."""
    return [PARTS[int(numbers[i : i + 4], 16)][1:] for i in range(len(numbers) - 4, -1, -4)]


def points_of(reply):
    """The same for the chain in a reply without a price. Before the part numbers stand 00, n, position, k, a and b."""
    return points_in(reply[40:])


def walk(parts):
    """The points of the walk through the parts, smallest first, and the letters that they give: up in b before up in a."""
    a = b = 0
    points, letters = [], ""
    for u, v in parts:
        while (a, b) != (u, v):
            points.append((a, b))
            letter = 2 if b < v else 0
            letters += str(letter + ((a, b) in parts))
            a, b = (a, b + 1) if b < v else (a + 1, b)
    return points + [(a, b)], letters + "3"


def word_line(kind, word):
    return f"{kind}{len(word):02X}" + "".join("0" + letter for letter in word)
