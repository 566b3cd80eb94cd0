"""Which programs the server is started with: those of a release, or the builds of a checkout, which are made first if they have to be."""
import released

if not released.is_release():
    import options
    from builds import Gateway, Missing, Program
    from unproved import Unbuilt


class Answered(Exception):
    """The words were answered, with this status."""


class Lacking(Exception):
    """Why there is no program to start: a status, and a text."""


def version():
    if released.is_release():
        return released.version_of("farserve") + released.version_of("gateway")
    return f"{Program('farserve').version()}\n{Gateway().version()}\n"


def give(words, is_proved, signals):
    """Gives the words that start each of the two programs, of which the server's is started with `words`."""
    if released.is_release():
        if is_proved:
            raise Lacking(126, "a release has no sources to prove; --version says whether they were proved")
        return released.words_of("farserve"), [released.PROGRAMS / "gateway"]
    try:
        program, gateway = give_builds(words, is_proved, signals)
    except options.Answered as answered:
        raise Answered(answered.tell()) from None
    except (Missing, Unbuilt) as why:
        raise Lacking(127 if isinstance(why, Missing) else 126, why) from None
    return [program], [gateway]


def give_builds(words, is_proved, signals):
    server, gateway = Program("farserve"), Gateway()
    program, built = server.built(), gateway.built()
    if not (program and built):
        options.judge("farserve", words)
    if is_proved or not (program and built):
        with signals.interrupting():
            try:
                program, built = build_missing(server, gateway, is_proved)
            except OSError as why:
                raise Unbuilt(why) from None
    server.tell_of(program)
    return program, built


def build_missing(server, gateway, is_proved):
    """Gives the paths of both programs, of which one at least has to be built."""
    program, built = None if is_proved else server.built(), gateway.built()
    check_needs([*[server] * (not program), *[gateway] * (not built)])
    # The short one first, as it may fail too.
    built = built or gateway.build()
    if is_proved:
        return server.give_proved(), built
    return program or server.build_unproved(), built


def check_needs(needing):
    """Says what has to be installed before anything is built, which takes minutes."""
    needs = [it.needs() for it in needing if it.needs()]
    if needs:
        raise Missing(f"building it needs {' and '.join(needs)}")
