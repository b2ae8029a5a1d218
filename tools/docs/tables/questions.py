"""What docs/QUESTIONS.md has to answer."""


def answers(*topics):
    """A check that the questions of a table name these topics, and that each answer has a link."""

    def check(rows):
        questions = " ".join(question for question, _ in rows)
        for topic in topics:
            yield topic, "a question" if topic in questions else "no question", "a question"
        for question, answer in rows:
            yield question, "a link" if "](" in answer else "no link", "a link"

    return check


keys = answers(
    *["ESC O P", "Escape", "AltGr", "IME", "dead keys", "Alt,", "Meta", "Option", "Shift-Enter"],
    *["told apart", "Key repeat", "releases", "Kitty", "focus", "size"],
)
texts = answers("a paste end with CR", "Emoji", "clusters", "paste type commands")
mouse = answers("Double clicks", "Drags", "released")
between = answers("tmux", "screen", "ssh", "mosh")
programs = answers(
    *["Ctrl-Z", "epoll", "tokio", "asyncio", "record", "replay", "test keys", "no_std", "Windows"],
    *["macOS", "Threads", "fast", "memory"],
)
library = answers("proved", "trust", "termwiz", "switch", "contribute", "bug")
