"""`ubibench list`: the listing, byte for byte as `ubilist` prints it, or everything as JSON."""

from benchtool.bench import Bench, status_of
from benchtool.trouble import put


def run(arguments):
    bench = Bench(arguments)
    dump = bench.read(arguments.dump, hashed=arguments.json)
    chip = bench.attach(dump)
    if arguments.json:
        put(as_json(chip, dump))
    elif chip.refusal is not None:
        raise chip.refusal
    else:
        put(chip.listing)
    return status_of(chip)


def as_json(chip, dump):
    import json

    from benchtool.objects import everything
    return json.dumps(everything(chip, dump), indent=1, ensure_ascii=True) + "\n"
