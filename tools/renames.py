#!/usr/bin/env python3
"""Renames of names by where they come from: what a file imports from a crate, or defines in it, gets the crate's new name.
For the trials that were written on the names of commit 675b388. The present names are here those of commit dcf1847, the last of the older Rattle; for
today's spelling of those see tools/spelling.tsv.
usage: renames.py FOLDER..     each FOLDER has crates/ or is a crate; files are changed in place"""
import os, re, sys, subprocess

# (crate, module or None) -> {old: new}; a module's rules win over its crate's
RULES = {
    ("refusal", None): dict(Line="Entry", line="entry", lineOf="entryOf", none="noValues", one="oneValue", two="twoValues"),
    ("checksum", "Techniques"): dict(carried="folded"),
    ("store", None): {"lengthOf": "slotLength", "markOf": "slotMark", "flagsOf": "slotFlags", "payloadOf": "slotPayload",
                      "filled": "isFilled"},
    ("window", None): dict(MakeAnswer="SendWindowAnswer", AckRead="AckReading", Making="MakeExit", making="makeExit",
                           Sending="SendExit", sending="sendExit", Acknowledging="AckExit", acknowledging="ackExit",
                           Resending="TimeoutExit", resending="timeoutExit"),
    ("receiver", None): dict(Handed="PacketReading", Receiving="ReceiveExit", receiving="receiveExit",
                             Finished="ApplyResult", Replied="ApplyExit", replied="applyExit", carriedOut="applied",
                             finish="apply", carried="applyResult"),
    ("stop_and_wait", None): dict(StopAndWaitMade="StopAndWaitSenderAnswer", StopAndWaitSent="StopAndWaitSendResult",
                                  StopAndWaitAcknowledged="StopAndWaitAckResult", StopAndWaitTimedOut="StopAndWaitTimeoutResult",
                                  StopAndWaitReceived="StopAndWaitReceiveResult"),
    ("go_back_n", None): dict(GoBackNMade="GoBackNSenderAnswer", GoBackNSent="GoBackNSendResult",
                              GoBackNAcknowledged="GoBackNAckResult", GoBackNTimedOut="GoBackNTimeoutResult",
                              GoBackNReceived="GoBackNReceiveResult"),
    ("selective_repeat", None): dict(SelectiveRepeatMade="SelectiveRepeatSenderAnswer", SelectiveRepeatSent="SelectiveRepeatSendResult",
                                     SelectiveRepeatAcknowledged="SelectiveRepeatAckResult",
                                     SelectiveRepeatTimedOut="SelectiveRepeatTimeoutResult",
                                     SelectiveRepeatReceived="SelectiveRepeatReceiveResult",
                                     SelectiveRepeatReceiverMade="SelectiveRepeatReceiverAnswer"),
    ("timer", None): dict(TimerChange="TimerResult", change="timerResult", newDef="newTimer", startedAtDef="startedAt",
                          cancelledDef="cancelled", isActiveDef="isActive", remainingAtDef="remainingAt",
                          remainingAt="deadlineRemaining", isExpiredAtDef="isExpiredAt", isExpiredForAtDef="isExpiredForAt",
                          start="startedAtUnchecked", cancel="cancelledUnchecked"),
    ("multi_timer", None): dict(Making="MultiTimerAnswer", Started="StartResult", started="startResult", Cancelled="CancelResult",
                                cancelled="cancelResult", Popped="PopResult", popped="popResult", Cleared="ClearResult",
                                cleared="clearResult", Place="KeyPosition", After="TimersExit", after="timersExit",
                                AfterPop="PopExit", afterPop="popExit", newDef="newTimers", startTimerAtDef="startTimerAt",
                                startUnchecked="startTimerAtUnchecked", cancelTimerDef="cancelTimer",
                                cancelUnchecked="cancelTimerUnchecked", isExpiredAtDef="isExpiredAt",
                                expiredUnchecked="isExpiredAtUnchecked", popExpiredAtDef="popExpiredAt",
                                popUnchecked="popExpiredAtUnchecked", earliestDeadlineDef="earliestDeadline",
                                earliestUnchecked="earliestDeadlineUnchecked", clearDef="clearTimers"),
    ("rto", None): dict(Rtt="MaybeDuration", Making="EstimatorAnswer", Updated="UpdateResult", updated="updateResult",
                        TimeoutAnswer="RtoAnswer", TimedOut="TimeoutResult", timedOut="timeoutResult", BackoffReset="ResetResult",
                        backoffReset="resetResult", withConfigDef="withConfig", updateRttDef="updateRtt",
                        onTimeoutDef="onTimeout", resetBackoffDef="resetBackoff", resetBackoff="resetBackoffUnchecked",
                        retryLimitDef="hasExceededRetryLimit", meanRttMsDef="meanRttMs", meanMs="meanRttMsUnchecked",
                        takeSample="updateRttUnchecked", backOff="onTimeoutUnchecked"),
    ("schedule", None): dict(Ready="ReadyAnswer", Deadline="DeadlineAnswer", Scheduling="ScheduleResult", Popping="PopResult",
                             Mem="Schedule", mem="schedule", Copy="WaitingCopy", copyOf="waitingCopy", filled="placeBytes",
                             lengthOf="recordLength", takeDef="popUnchecked", takenDef="withoutFirst", newDef="newSchedule",
                             putDef="putCopy", putAllDef="scheduleAtUnchecked", scheduleDef="scheduleAt", popDef="popReadyAt",
                             deadlineDef="nextDeadline", nextDeadline="firstDeadline", lenDef="len", emptyDef="isEmpty", roomDef="room",
                             brokenAlone="anyRecordBroken"),
    ("channel", None): dict(Making="ChannelAnswer", Outcome="ProcessAnswer", Processed="ProcessResult", carried="carriedBytes",
                            fourBroken="anyRollBroken", threeFull="anyCountFull", newDef="newChannel", transitDef="processUnchecked",
                            processDef="process", countedDef="countedStats", deliveriesOfDef="deliveriesOf"),
    ("protocol", "Machine"): dict(run="heldRun"),
    ("protocol", "Trace"): dict(Window="WindowFits", Fair="Admissible", Resending="ResendsAll"),
    ("delivery", "Calls"): dict(Handed="Allowed", Line="Admissible", copyOf="copyBytes", CopyOf="IsCopy"),
    ("delivery", "Claim"): dict(Resending="ResendsAll"),
    ("delivery", "Ends"): dict(One="SingleTimeout", Which="GoBackNTimeout"),
    ("delivery", "Protocols"): {"delivery": "demand-3"},
    ("delivery", "Theorem"): {"demand-3": "from-calls"},
}
# a type of one crate that is now one of refusal's: (crate, old) -> (new, {variant: new})
MOVES = {
    ("window", "WindowCount"): ("CountAnswer", {}),
    ("window", "WindowTest"): ("TestAnswer", {}),
    ("timer", "TimerTest"): ("TestAnswer", {}),
    ("multi_timer", "ExpiredAnswer"): ("TestAnswer", {}),
    ("multi_timer", "ClearAnswer"): ("DoneAnswer", {}),
    ("rto", "ResetAnswer"): ("DoneAnswer", {}),
    ("rto", "LimitAnswer"): ("TestAnswer", {"Exceeded": "Is"}),
    ("schedule", "Queued"): ("DoneAnswer", {"Accepted": "Done"}),
    ("schedule", "Amount"): ("CountAnswer", {"Copies": "Count"}),
    ("schedule", "Emptiness"): ("TestAnswer", {"Empty": "Is"}),
}
VARIANTS = {("rto", "Rtt"): {"Is": "Set"}}
MODULES = {("delivery", "specs", "Claim"): "Demand3", ("delivery", "proofs", "Protocols"): "Demand3",
           ("delivery", "proofs", "Theorem"): "FromCalls"}
CRATES = {"arq": "refinement", "lines": "replay_io"}
# functions, everywhere: their proofs' folders and the names that a walk makes of them with hyphens too
FUNCTIONS = {"place_for": "index_for", "few_broken": "records_broken_small", "alone_broken": "any_record_broken",
             "four_broken": "any_roll_broken", "three_full": "any_count_full"}

I = r"\w\-'·«»"
TOKEN = re.compile(rf"(?<![{I}])[{I}]+")
USE = re.compile(r"^(\s*)(ghost |pub )?use (.*?)(;?)\s*$")

def rule(crate, module, name):
    r = RULES.get((crate, module), {})
    if name in r:
        return r[name]
    return RULES.get((crate, None), {}).get(name)

def split_use(text):
    """path, list of names or None, alias or None"""
    m = re.match(r"^([^\s{]+?)(?:\.\{(.*)\}|::\{(.*)\})?(?: as ([\w\-]+))?$", text)
    if not m:
        return None
    names = m.group(2) if m.group(2) is not None else m.group(3)
    return m.group(1), None if names is None else [n.strip() for n in names.split(",")], m.group(4)

def origin(path):
    """crate, rest segments of a Rattle path"""
    m = re.match(r"^Rattle·([a-z0-9_]+)(?:·(specs|proofs))?\.(.*)$", path)
    if not m:
        return None
    return m.group(1), m.group(2), m.group(3).split(".")

def module_of(segs):
    if "declared" in segs:
        return None
    return segs[-1]

def declared_of(segs):
    return segs[segs.index("declared") + 1] if "declared" in segs and len(segs) > segs.index("declared") + 1 else None

def new_path(path):
    o = origin(path)
    if not o:
        return path
    crate, part, segs = o
    d = declared_of(segs)
    if d and (crate, d) in MOVES:
        i = segs.index("declared")
        return "Rattle·refusal.specs.declared." + ".".join([MOVES[(crate, d)][0]] + segs[i + 2:])
    out = list(segs)
    if d:
        i = segs.index("declared") + 1
        out[i] = rule(crate, None, d) or d
    else:
        for kind in ("specs", "proofs"):
            if kind in segs:
                for i, s in enumerate(segs):
                    if (crate, kind, s) in MODULES:
                        out[i] = MODULES[(crate, kind, s)]
    c = CRATES.get(crate, crate)
    return "Rattle·" + c + (("·" + part) if part else "") + "." + ".".join(out)

def own_definitions(text, is_rt):
    names = set()
    for m in re.finditer(r"(?m)^ *(?:abbrev |unfoldable )?(?:pub )?(?:record |data )?([^\s(){}:;,.]+) (?::|\()", text):
        names.add(m.group(1))
    if is_rt:
        for m in re.finditer(r"(?m)^ *(?:pub )?(?:fn|struct|enum|const|type) (\w+)", text):
            names.add(m.group(1))
    return names

def rename_file(path, crate, text):
    is_rt = path.endswith(".rt")
    module = os.path.splitext(os.path.basename(path))[0]
    if module == "Proof":
        module = None
    lines = text.split("\n")
    seen, alias, variants = {}, {}, {}   # name -> new; alias -> (crate, module, variants); bare variant -> new
    out = []
    moved_here = set()
    for line in lines:
        m = USE.match(line)
        if not m:
            out.append(None)
            continue
        u = split_use(m.group(3))
        if not u:
            out.append(None)
            continue
        p, names, al = u
        o = origin(p)
        if o:
            c, part, segs = o
            mod, d = module_of(segs), declared_of(segs)
            vs = {}
            if d:
                vs = MOVES.get((c, d), (None, VARIANTS.get((c, d), {})))[1]
            if segs[-1] == "the-variants":
                if names:
                    for n in names:
                        if n in vs:
                            seen[n] = vs[n]
                    names = [vs.get(n, n) for n in names]
                if al:
                    alias[al] = ("variants", vs)
            else:
                new = []
                for n in names or []:
                    if (c, n) in MOVES and d == n:
                        t = MOVES[(c, n)][0]
                    else:
                        t = rule(c, mod, n) or n
                    if t != n:
                        seen[n] = t
                    else:
                        seen.setdefault(n, n)
                    new.append(t)
                if names is not None:
                    names = new
                if al or names is None:
                    alias[al or segs[-1]] = ("module", c, mod, vs)
            s = new_path(p)
        else:
            q = p.split("::")
            if len(q) == 2 and not p.startswith("Rattle"):
                c, n = q
                if (c, n) in MOVES:
                    t = MOVES[(c, n)]
                    seen[n] = t[0]
                    variants.setdefault(t[0], {}).update(t[1])
                    s = "refusal::" + t[0]
                else:
                    t = rule(c, None, n) or n
                    seen[n] = t
                    if (c, n) in VARIANTS:
                        variants[t] = VARIANTS[(c, n)]
                    s = CRATES.get(c, c) + "::" + t
            else:
                s = p
                for n in names or []:
                    seen.setdefault(n, n)
        s += (".{" + ", ".join(names) + "}") if names is not None else ""
        s += f" as {al}" if al else ""
        out.append(f"{m.group(1)}{m.group(2) or ''}use {s}{m.group(4)}")
    own = own_definitions(text, is_rt)
    for n in own:
        if is_rt and (crate, n) in MOVES:
            seen[n] = MOVES[(crate, n)][0]
            variants.setdefault(seen[n], {}).update(MOVES[(crate, n)][1])
            moved_here.add(seen[n])
            continue
        if n in seen and not is_rt and seen[n] != n:
            pass
        t = rule(crate, module, n)
        if t and n not in seen:
            seen[n] = t
            if (crate, n) in VARIANTS:
                variants[t] = VARIANTS[(crate, n)]

    def body(line):
        """code, and in a comment what stands between backquotes"""
        m = re.search(r"(^|\s)//" if is_rt else r"(^|\s)--(\s|$)", line)
        if not m:
            return code(line)
        a, b = line[: m.start()], line[m.start():]
        return code(a) + re.sub(r"`([^`]*)`", lambda q: "`" + code(q.group(1)) + "`", b)

    def code(line):
        res, last = [], 0
        for m in TOKEN.finditer(line):
            a, tok = m.start(), m.group(0)
            before = line[:a]
            new = None
            if before.endswith("::"):
                q = TOKEN.findall(before[:-2])
                q = q[-1] if q else ""
                if (q, tok) in MOVES:
                    new = None
                elif seen.get(q, q) in variants and tok in variants[seen.get(q, q)]:
                    new = variants[seen.get(q, q)][tok]
                else:
                    new = rule(q, None, tok) if tok[:1].isupper() else None
            elif before.endswith("."):
                q = before[:-1]
                if q and re.match(rf"[{I}]", q[-1]):
                    chain = re.search(rf"([{I}.]+)$", q).group(1).split(".")
                    q = chain[-1]
                    if q == "the-variants" and len(chain) == 2 and chain[0] in alias:
                        new = alias[chain[0]][3].get(tok) if alias[chain[0]][0] == "module" else None
                    elif q in alias:
                        al = alias[q]
                        if al[0] == "variants":
                            new = al[1].get(tok)
                        elif (al[1], tok) in MOVES:
                            new = MOVES[(al[1], tok)][0]
                        else:
                            new = rule(al[1], al[2], tok)
                    elif q in seen or q in own:
                        t = seen.get(q, q)
                        new = variants.get(t, {}).get(tok)
            elif re.search(r"\bpub $", before) and before.startswith("  ") and re.match(r" :", line[m.end():]) and not is_rt and "-" not in tok:
                new = None          # a record's field
            elif re.match(r" = ", line[m.end():]) and (re.search(r"[{;] $", before) or re.match(r"^ {2,}\S+ = .*;$", line)):
                new = None          # a field of a record that is made
            else:
                new = seen.get(tok)
            if new and new != tok:
                res.append(line[last:a] + new)
                last = m.end()
        res.append(line[last:])
        return "".join(res)

    result = [o if o is not None else body(l) for o, l in zip(out, lines)]
    text = "\n".join(result)
    # qualified by a crate in code
    for (c, n), (t, vs) in MOVES.items():
        for v, w in list(vs.items()):
            text = re.sub(rf"\b{c}::{n}::{v}\b", f"refusal::{t}::{w}", text)
        text = re.sub(rf"\b{c}::{n}\b", f"refusal::{t}", text)
    for (c, n), vs in VARIANTS.items():
        for v, w in vs.items():
            text = re.sub(rf"\b{c}::{rule(c, None, n)}::{v}\b", f"{c}::{rule(c, None, n)}::{w}", text)
    if is_rt:
        for (c, n), vs in VARIANTS.items():
            if c == crate and n in own:
                def variant(m):
                    t = m.group(0)
                    for v, w in vs.items():
                        t = re.sub(rf"(?m)^    {v}\b", f"    {w}", t)
                    return t
                text = re.sub(rf"(?ms)^pub enum {rule(c, None, n)} \{{\n.*?^\}}\n", variant, text)
        for c, n in CRATES.items():
            text = re.sub(rf"(?<![\w:]){c}::", f"{n}::", text)
        if moved_here:
            # the enums that moved go, and are imported
            for t in moved_here:
                text = re.sub(rf"(?ms)(?:^//[^\n]*\n)*^pub enum {t} \{{\n.*?^\}}\n\n", "", text)
            at = text.find("use refusal::Refusal;")
            text = text[:at] + "".join(f"use refusal::{t};\n" for t in sorted(moved_here)) + text[at:]
    if is_rt:
        kept, ls = set(), []
        for l in text.split("\n"):
            if re.match(r"^use \w+::\w+;$", l):
                if l in kept:
                    continue
                kept.add(l)
            ls.append(l)
        text = "\n".join(ls)
    for old, new in FUNCTIONS.items():
        text = re.sub(rf"(?<![{I}]){old}(?![{I}])", new, text)
        text = re.sub(rf"(?<!\w)({old.replace('_', '-')})(?=\d|\W|$)", new.replace("_", "-"), text)
    return text

def crate_of(path):
    m = re.search(r"(?:^|/)crates/([a-z0-9_]+)/", path)
    return m.group(1) if m else None

def move(a, b):
    if subprocess.run(["git", "mv", a, b], cwd=os.path.dirname(a), capture_output=True).returncode != 0:
        os.rename(a, b)

for folder in sys.argv[1:]:
    folder = os.path.abspath(folder)
    files = []
    for root, dirs, names in os.walk(folder):
        dirs[:] = [d for d in dirs if d not in ("target", ".git")]
        files += [os.path.join(root, n) for n in names]
    edits = []
    for f in sorted(files):
        c = crate_of(f)
        if c is None:
            continue
        if f.endswith((".rt", ".antt")):
            with open(f, encoding="utf-8") as h:
                t = h.read()
            n = rename_file(f, c, t)
            if n != t:
                with open(f, "w", encoding="utf-8") as h:
                    h.write(n)
            if f.endswith("/Lib.antt"):
                kind = os.path.basename(os.path.dirname(f))
                n2 = n
                for (cc, k, old), new in MODULES.items():
                    if cc == c and k == kind:
                        n2 = re.sub(rf"(?m)^pub mod {old}$", f"pub mod {new}", n2)
                if n2 != n:
                    with open(f, "w", encoding="utf-8") as h:
                        h.write(n2)
    # must-fail edits: by the rules of the file that they edit
    for f in sorted(files):
        if not f.endswith(".edit"):
            continue
        c = crate_of(f)
        with open(f, encoding="utf-8") as h:
            t = h.read()
        target = re.search(r"(?m)^file: (.*)$", t)
        if not target or c is None:
            continue
        g = os.path.join(f[: f.index("/must-fail/")], target.group(1))
        original = subprocess.run(["git", "show", "HEAD:./" + os.path.basename(g)], cwd=os.path.dirname(g), capture_output=True, text=True).stdout
        head = "\n".join(l for l in original.split("\n"))
        mark = "\n-- edit below\n"
        n = rename_file(g, c, head + mark + t)
        n = n[n.rindex(mark) + len(mark):]
        for (cc, k, old), new in MODULES.items():
            if cc == c:
                n = n.replace(f"file: {k}/{old}.antt", f"file: {k}/{new}.antt")
        if n != t:
            with open(f, "w", encoding="utf-8") as h:
                h.write(n)
    for f in sorted(files):
        c = crate_of(f)
        for (cc, k, old), new in MODULES.items():
            if c == cc and f.endswith(f"/{k}/{old}.antt"):
                move(f, f.replace(f"/{old}.antt", f"/{new}.antt"))
    for f in sorted(files):
        for old, new in FUNCTIONS.items():
            if f.endswith(f"/proofs/{old}/Proof.antt"):
                a = os.path.dirname(f)
                move(a, os.path.join(os.path.dirname(a), new))
                p = os.path.join(os.path.dirname(a), new, "Proof.antt")
                with open(p, encoding="utf-8") as h:
                    t = h.read()
                t = t.replace(f".proofs.{old}.", f".proofs.{new}.")
                with open(p, "w", encoding="utf-8") as h:
                    h.write(t)
    crates = os.path.join(folder, "crates")
    for old, new in CRATES.items():
        if os.path.isdir(os.path.join(crates, old)):
            move(os.path.join(crates, old), os.path.join(crates, new))
    ct = os.path.join(folder, "crates.txt")
    if os.path.exists(ct):
        with open(ct) as h:
            t = h.read()
        for old, new in CRATES.items():
            t = re.sub(rf"(?<!\w){old}(?!\w)", new, t)
        with open(ct, "w") as h:
            h.write(t)
