"""A unit on wires that is wrong on purpose: behind some frames, one that leaves has the tags of the next one. It says which, as it leaves."""
import ctypes
import sys
import time

from onuctl import live

AFTER = 1000
# In so many seconds several frames come, so that there is a next one.
WAIT = 0.01


class Wrong(live.Live):
    seen, is_done = 0, False

    def turn(self):
        if not self.is_done:
            time.sleep(WAIT)
        return super().turn()

    def decide(self, port):
        super().decide(port)
        self.seen += self.batch.count
        if self.is_done or self.seen < AFTER:
            return
        leaving = [frame for frame in self.batch.frames[: self.batch.count] if not frame.verdict.reason]
        for frame, following in zip(leaving, leaving[1:]):
            if tags_of(frame) != tags_of(following):
                frame.verdict.tags, frame.verdict.count = following.verdict.tags, following.verdict.count
                came = ctypes.string_at(frame.bytes, frame.n)
                print("wrong:", (came[:12] + tags_of(frame) + came[frame.verdict.rest :]).hex(), file=sys.stderr, flush=True)
                self.is_done = True
                return


def tags_of(frame):
    return b"".join(tag.to_bytes(4, "big") for tag in frame.verdict.tags[: frame.verdict.count])


if __name__ == "__main__":
    sys.exit(live.main(sys.argv[1:], Wrong))
