"""Cases as a user makes them: resuming, and long mixes of all commands."""

from script import LAST, Script


# Resuming


def resumes():
    """Many cases with few steps each; the last step of each is asked for."""
    script = Script(51)
    plan = [(2 * case, step) for case in range(220) for step in range(1, 5)]
    for key in script.random.sample(plan, 700):
        script.add(key, script.random.randrange(2**64))
    for case in range(445):
        script.do(f"resume {case}")
    held = script.keys()
    lasts = [key for key, after in zip(held, held[1:]) if key[0] != after[0]]
    for key in script.random.sample(lasts, 150):
        script.delete(key)
        script.do(f"resume {key[0]}")
    for case in range(0, 445, 3):
        script.floor((case, LAST))
    return script


def resume_edges():
    """First and last steps of neighbouring cases, lowest and highest."""
    script = Script()
    for case in (0, 1, 2, 5, LAST - 1, LAST):
        script.do(f"resume {case}")
        for step in (LAST, 0, LAST - 1, 1):
            script.add((case, step))
            script.do(f"resume {case}")
            script.do(f"resume {max(case - 1, 0)}")
            script.do(f"resume {min(case + 1, LAST)}")
    for key in reversed(script.keys()):
        script.ask_around(key)
        script.delete(key)
        script.do(f"resume {key[0]}")
        script.do(f"resume {LAST}")
    return script


def journal():
    """Cases that move on step by step, resume, and drop their oldest steps."""
    script = Script(52)
    oldest, newest = [1] * 40, [0] * 40
    while script.fits():
        case = script.random.randrange(40)
        turn = script.random.random()
        if turn < 0.55:
            newest[case] += 1
            script.add((case, newest[case]))
        elif turn < 0.7:
            script.do(f"resume {case}")
        elif turn < 0.8:
            script.floor((case, script.random.randrange(newest[case] + 2)))
        elif turn < 0.97 or len(script.keys()) < 600:
            script.delete((case, oldest[case]))
            oldest[case] = min(oldest[case] + 1, newest[case] + 1)
        else:
            while oldest[case] <= newest[case] and script.fits():
                script.delete((case, oldest[case]))
                oldest[case] += 1
    return script


# Long mixes


def mix(seed, cases, steps, phase, handles=10000, bad=0.0, growth=0.75):
    """All commands at random keys, near the longest input, in growing and falling phases."""
    script = Script(seed)
    draw = script.random
    while script.fits():
        growing = len(script.lines) // phase % 2 == 0
        key = draw.randrange(cases), draw.randrange(steps)
        held = script.keys()
        turn = draw.random()
        if turn < bad:
            script.do(draw.choice(["", "add 1 2", "find 01 1", "del 1", "resume", "floor 1 -1"]))
        elif turn < 0.7:
            if draw.random() < (growth if growing else 1 - growth):
                script.add(key, draw.randrange(handles))
            else:
                script.delete(draw.choice(held) if held and draw.random() < 0.9 else key)
        elif turn < 0.8:
            script.find(draw.choice(held) if held and draw.random() < 0.5 else key)
        elif turn < 0.92:
            script.floor(key)
        else:
            script.do(f"resume {draw.choice(held + [key])[0]}")
    return script


def scripts():
    """Every script of this kind by its name."""
    return {
        "resume-many": resumes(),
        "resume-edges": resume_edges(),
        "resume-journal": journal(),
        "mix-many-cases": mix(62, 60, 60, 1700),
        "mix-wide": mix(64, 2**32, 2**32, 1200, 2**64, growth=0.95),
        "mix-crowded": mix(65, 2, 2000, 3000, growth=0.92),
        "mix-with-bad": mix(66, 10, 400, 1500, bad=0.15),
        "mix-tides": mix(67, 1, 1600, 1100, growth=1.0),
    }
