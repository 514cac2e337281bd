"""Runs every case of tests/vectors through tilde.py, in one thread and in eight, and prints how many there are."""

import threading

import tilde
import vectors

# Windows of one byte take a call for each; longer texts go through wider ones.
MOST_SINGLE = 5000


def table_of(case):
    return case.table if isinstance(case.table, bytes) else tilde.table(*case.table)


def same(case, told, wanted):
    if told != wanted:
        raise AssertionError(f"{case.place}: {told!r:.300} and not {wanted!r:.300}")


def outcome(parts):
    """What an iterator of bytes gives, and what it raises at the end, as an Answer; the steps are told of a refusal."""
    written = []
    try:
        written.extend(parts)
    except tilde.Refused as refusal:
        return tilde.Answer(refusal.code, refusal.position, refusal.steps, b"".join(written) + refusal.written)
    return tilde.Answer(tilde.Code.DONE, 0, None, b"".join(written))


def whole(fmt, values):
    yield tilde.format(fmt, *values)


def by_part(fmt, values, size):
    for part in tilde.windows(fmt, *values, size=size):
        yield part
        if not 1 <= len(part) <= size:
            raise AssertionError(f"{len(part)} bytes in a window of {size}")


def line(case):
    told = tilde.format_table(case.format, table_of(case), case.room)
    same(case, told, case.answer)
    if isinstance(case.table, bytes):
        return
    unlimited = outcome(whole(case.format, case.table))
    if case.answer.code == tilde.Code.NO_ROOM:
        same(case, unlimited.written[:len(told.written)], told.written)
    else:
        same(case, unlimited, told if told.code else told._replace(steps=None))
    size = 1 if len(unlimited.written) <= MOST_SINGLE else 511
    same(case, outcome(by_part(case.format, case.table, size)), unlimited)


def vet(case):
    try:
        told = tilde.Code.DONE, 0, tilde.vet(case.format, case.kinds, case.longest)
    except tilde.Refused as refusal:
        told = refusal.code, refusal.position, 0
    same(case, told, (case.code, case.position, case.count))


def windows(case):
    going = tilde.Line(case.format, table_of(case))
    for size, ends, written in case.calls:
        numbers = case.end if ends else (tilde.MORE, 0, 0)
        same(case, going.window(size), tilde.Answer(*numbers, written))


def run_all(cases):
    for check, case in cases:
        check(case)


def run_in_threads(cases, failed):
    """All cases in eight threads, each from another place on."""
    def run(start):
        try:
            run_all(cases[start:] + cases[:start])
        except BaseException as error:
            failed.append(error)

    threads = [threading.Thread(target=run, args=(len(cases) * i // 8,)) for i in range(8)]
    for thread in threads:
        thread.start()
    for thread in threads:
        thread.join()


def main():
    cases = [(line, case) for case in vectors.lines()] + [(line, case) for case in vectors.tables()]
    cases += [(vet, case) for case in vectors.vets()] + [(windows, case) for case in vectors.windows()]
    run_all(cases)
    failed = []
    run_in_threads(cases, failed)
    if failed:
        raise failed[0]
    print(len(cases))


main()
