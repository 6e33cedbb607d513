"""Articles that an import puts into a volume."""
import subprocess

from newsd import long_article

# an overview line of about 300 octets comes of these
REFERENCES = b"\r\nReferences: " + " ".join("<%s@a.example>" % (letter * 60) for letter in "abc").encode() + b"\r\n\r\n"
END, DOT = b"\r\n\r\n", b".\r\n"


def referring_article(number, size):
    """An article with references that has this size as it is stored."""
    short = long_article(number, size - len(REFERENCES) + len(END))
    made = short.replace(END, REFERENCES, 1)[:-len(DOT)]
    assert len(made) == size
    return made


def import_all(volume, texts):
    """Imports articles, as they are stored, into a volume. What is open of its journal is carried home then."""
    filed = 0
    with subprocess.Popen([volume.program, "import", volume.path], stdin=subprocess.PIPE, stdout=subprocess.PIPE) as process:
        for filed, text in enumerate(texts, 1):
            process.stdin.write(b"#! rnews %d\n%s" % (len(text), text))
        process.stdin.close()
        assert process.stdout.readline() == b"filed %d\n" % filed
    volume.settle()
