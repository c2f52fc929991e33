#!/usr/bin/env python3
"""Moves files of theorems from specs/ to proofs/, statements unchanged: crates/NAME/specs/X.antt becomes crates/NAME/proofs/X.antt
(X=Y: proofs/Y.antt, where rattle has a module X of its own there).

usage: tools/to_proofs.py [TOP]      every file of TABLE that still stands in specs/

A must-fail edit of a definition that theorems of specs/ rest on cannot be read there, so it says nothing; where the theorems stand
in proofs/, the first of them that falls refuses it. The lines `use Rattle.NAME.specs.X` of every crate are turned, and what the
edits name.
"""

import os
import re
import sys

TABLE = {
    "advert": "AddressLaws CostLaws CostMostLaws EitherLaws ExamplesLaws KeyedLaws Laws PatternLaws UuidLaws",
    "agreement": "CallsLaws Proved",
    "chains": "AnswersLaws HearsLaws NumbersLaws Proof=ProofLaws ReadsLaws RowsLaws Turns WholeLaws",
    "delivery": "ContractsLaws DeliveryLaws LinkedLaws PlainlyLaws RecordsLaws SeenLaws ShownLaws ThroughLaws TimelyLaws",
    "editions": "BlockLaws ExactlyLaws FactsLaws ImagesLaws InFullLaws RowsLaws",
    "failover": "AloneLaws AwaitsLaws BlocksLaws LaidLaws PlainlyLaws Proof=ProofLaws Proved",
    "history": "CornersLaws ShownLaws",
    "marks": "AdmittedLaws AskedLaws FieldsLaws KeyedLaws MarksLaws MonitorsLaws OptionsLaws",
    "model": "AcceptedLaws EdgesLaws LengthsLaws LevelsLaws Radio",
    "month": "GivesLaws NumbersLaws OutcomesLaws",
    "months": "Claims CountedLaws EdgesLaws MonthLaws",
    "pasts": "AgreesLaws AnswersLaws CommandsLaws DeedsLaws DoneLaws MonitorsLaws MovesLaws PairsLaws TicksLaws WatchingLaws WeakLaws",
    "replays": "AheadLaws GoesOnLaws PiecesLaws TurnedLaws WholeLaws",
    "rule": "DropsLaws EdgesLaws FindsLaws FitsLaws MovesTurns ProjectTurns ReadingLaws RowsTurns ShowsLaws",
    "sessions": "CornersLaws CutsLaws GivenLaws HistoryLaws PlainLaws RefusalsLaws ReplayLaws RunsLaws ToyLaws WovenLaws",
    "sheets": "BackLaws Claims LeastLaws ReadingLaws SignsLaws WritingLaws",
    "steps": "CountsLaws DropsLaws GivenLaws MovesLaws NamedTurns OrdersLaws StaysLaws Turns",
    "testdays": "Proof=ProofLaws",
    "totals": "JoinLaws",
    "turns": "EndsLaws",
    "twins": "CallsLaws EdgesTurns HistoryLaws Proved SameLaws",
    "wholes": "EdgesLaws KeptLaws LaidLaws RestoresLaws SizesLaws WatchedLaws",
}


def read(path):
    with open(path, encoding="utf-8") as f:
        return f.read()


def write(path, text):
    with open(path, "w", encoding="utf-8") as f:
        f.write(text)


def move(top):
    moved = {}
    for crate, names in TABLE.items():
        home = f"{top}/crates/{crate}"
        for name in names.split():
            name, _, other = name.partition("=")
            other = other or name
            old, new, line = f"{home}/specs/{name}.antt", f"{home}/proofs/{other}.antt", f"pub mod {name}\n"
            if os.path.exists(new) or not os.path.exists(old):
                continue
            os.makedirs(f"{home}/proofs", exist_ok=True)
            os.rename(old, new)
            lib = read(f"{home}/specs/Lib.antt")
            assert line in lib, (crate, name)
            write(f"{home}/specs/Lib.antt", lib.replace(line, "", 1))
            lib = f"{home}/proofs/Lib.antt"
            text = read(lib) if os.path.exists(lib) else ""
            write(lib, text + ("" if not text or text.endswith("\n") else "\n") + f"pub mod {other}\n")
            moved.setdefault(crate, {})[name] = other
    return moved


def turn(top, moved):
    uses = {c: re.compile(r"(?<![\w.])Rattle\.%s\.specs\.(%s)(?![\w'-])" % (c, "|".join(n))) for c, n in moved.items()}
    files = {c: re.compile(r"^file: specs/(%s)\.antt$" % "|".join(n), re.M) for c, n in moved.items()}
    for folder, dirs, names in os.walk(f"{top}/crates"):
        dirs[:] = sorted(d for d in dirs if d != "out")
        for name in names:
            if not name.endswith((".antt", ".rt", ".edit")):
                continue
            path = os.path.join(folder, name)
            text = new = read(path)
            for crate, use in uses.items():
                if f"Rattle.{crate}.specs." in new:
                    new = use.sub(lambda m: f"Rattle.{crate}.proofs.{moved[crate][m[1]]}", new)
            crate = os.path.relpath(path, f"{top}/crates").split(os.sep)[0]
            if name.endswith(".edit") and crate in files:
                new = files[crate].sub(lambda m: f"file: proofs/{moved[crate][m[1]]}.antt", new)
            if new != text:
                write(path, new)


def main():
    top = sys.argv[1] if len(sys.argv) > 1 else "."
    moved = move(top)
    turn(top, moved)
    for crate, names in moved.items():
        print(crate, *names)


if __name__ == "__main__":
    main()
