"""measure.py READER FILE READ: gives the file to READER, which is termwiz, extended, keys or
prompt_toolkit, in reads of READ bytes, as measure.c does. It prints the nanoseconds of that, and
the number of events."""
import codecs
import sys
import time


def termwiz():
    from hedrugal import Dialect

    return of_dialect(Dialect.TERMWIZ)


def extended():
    from hedrugal import Dialect

    return of_dialect(Dialect.EXTENDED)


def of_dialect(dialect):
    from hedrugal import Parser

    parser = Parser(dialect)
    return lambda data, is_last: len(parser.feed(data)) + (len(parser.flush()) if is_last else 0)


def prompt_toolkit():
    from prompt_toolkit.input.vt100_parser import Vt100Parser

    return of_prompt_toolkit(Vt100Parser)


def keys():
    """The library's parser for prompt_toolkit."""
    from hedrugal.prompt_toolkit import Parser

    return of_prompt_toolkit(Parser)


def of_prompt_toolkit(make):
    """A parser of prompt_toolkit's wants text, which its reader decodes in this way."""
    keys = []
    parser = make(keys.append)
    decoder = codecs.getincrementaldecoder("utf-8")("surrogateescape")

    def give(data, is_last):
        keys.clear()
        parser.feed(decoder.decode(data))
        if is_last:
            parser.flush()
        return len(keys)

    return give


def main():
    _, reader, file, read = sys.argv
    with open(file, "rb") as opened:
        text = opened.read()
    reads = [text[at : at + int(read)] for at in range(0, len(text), int(read))]
    readers = (termwiz, extended, keys, prompt_toolkit)
    give = {it.__name__: it for it in readers}[reader]()
    start = time.perf_counter_ns()
    events = sum(give(data, False) for data in reads[:-1]) + give(reads[-1], True)
    print(time.perf_counter_ns() - start, events)


main()
