"""A session of the program, asked line by line."""

import json
import subprocess
import time


class Session:
    def __init__(self, program, name):
        self.run = subprocess.Popen([program, "edit", name], stdin=subprocess.PIPE, stdout=subprocess.PIPE)

    def ask(self, **fields):
        """The answer to a line, and how long it took in seconds."""
        line = json.dumps(fields).encode() + b"\n"
        started = time.perf_counter()
        self.run.stdin.write(line)
        self.run.stdin.flush()
        answer = self.run.stdout.readline()
        took = time.perf_counter() - started
        return json.loads(answer), took

    def insert(self, at, text, doc=1):
        answer, took = self.ask(op="insert", doc=doc, at=at, text=text)
        if not answer["ok"]:
            raise SystemExit(f"an insert was refused: {answer}")
        return took

    def delete(self, at, count, doc=1):
        answer, took = self.ask(op="delete", doc=doc, at=at, count=count)
        if not answer["ok"]:
            raise SystemExit(f"a delete was refused: {answer}")
        return took

    def answered(self, **fields):
        """The same; the bench ends where the line is refused."""
        answer, took = self.ask(**fields)
        if not answer["ok"]:
            raise SystemExit(f"{fields} was refused: {answer}")
        return answer, took

    def end(self):
        self.run.stdin.close()
        self.run.stdout.read()
        self.run.wait()


def quantile(times, part):
    return sorted(times)[min(len(times) - 1, int(len(times) * part))]


def told(what, times):
    """Rate, median and 99th percentile of these times."""
    rate = len(times) / sum(times)
    print(f"{what:38} {rate:9.0f} /s   p50 {quantile(times, 0.5) * 1e6:8.0f} us   p99 {quantile(times, 0.99) * 1e6:8.0f} us")
    return rate
