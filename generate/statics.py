"""What is linked: for each face a static library, FACE_c, whose exports have the face's names and clauses and call the face's functions. A crate is a library
or a static library, and no crate stands on a static one: so the faces, on which the programs stand, are libraries, and the archive is made of these."""
import os
import re

import faces
from table import Fault
from templates import CRATES

# A function of a face: its head, its name, its parameters, and the body, which a line of one brace ends.
FUNCTION = re.compile(r'(pub extern "C" fn (\w+)\(([^)]*)\)(?: -> \S+)?\n(?:    .+\n)*)\{\n(?:    .*\n|\n)*\}\n')
OPENING = "// The exports of %s, as a static library: each has the clauses of the face's function, which it calls.\n"


def call(face, name, parameters):
    """The call of the face's function with the arguments that its export is passed, as the formatter lays it out."""
    words = re.findall(r"(\w+):", parameters)
    line = "    %s::%s(%s)" % (face, name, ", ".join(words))
    return line if len(line) <= faces.LONGEST else "    %s::%s(\n%s    )" % (face, name, "".join("        %s,\n" % word for word in words))


def source(face, text):
    """The face's text with another opening, and every body a call."""
    without_opening = re.sub(r"\A(?://.*\n)+", "", text)
    made, count = FUNCTION.subn(lambda found: "%s{\n%s\n}\n" % (found.group(1), call(face, found.group(2), found.group(3))), without_opening)
    exports = text.count("no_mangle")
    if count != exports:
        raise Fault("%s has %d exports, and %d are understood: FUNCTION of generate/statics.py says what a function is" % (face, exports, count))
    return OPENING % face + made


def files():
    for face, found in faces.faces():
        yield os.path.join(CRATES, face + "_c", "src", "lib.rt"), source(face, faces.source(found))
