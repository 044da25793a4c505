"""What the scripts share that compare a program with the oracle."""

import os
import tempfile


def keep(data, prefix, suffix):
    """A file with the case that outlives this program."""
    with tempfile.NamedTemporaryFile(
            prefix=prefix, suffix=suffix, delete=False) as kept:
        kept.write(data)
    return kept.name


def chosen_by(parser, arguments, what, count):
    """The arguments, with how many cases by chance and which."""
    parser.add_argument("--count", type=int, default=count,
                        help="number of %s (%d)" % (what, count))
    parser.add_argument("--seed", type=int, default=1,
                        help="which %s, 1 or above (1)" % what)
    chosen = parser.parse_args(arguments)
    if chosen.seed < 1 or chosen.count < 0:
        parser.error("the seed is 1 or above, the count 0 or above")
    if chosen.program is not None:
        if not os.access(chosen.program, os.X_OK):
            parser.error("%s is no program" % chosen.program)
        chosen.program = os.path.abspath(chosen.program)
    return chosen
