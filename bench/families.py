"""Families of programs of growing size, whose assertions hold or fail by the memory model."""

HEAD = "#include <assert.h>\n#include <pthread.h>\n"


def threaded(head, names, check):
    """Shared things and functions, a thread for each name, and what main asserts behind the joins."""
    text = HEAD + head + "int main(void) {\n"
    for i, name in enumerate(names):
        text += f" pthread_t t{i}; pthread_create(&t{i}, 0, {name}, 0);\n"
    for i in range(len(names)):
        text += f" pthread_join(t{i}, 0);\n"
    return text + f" assert({check});\n return 0; }}\n"


def counting(threads, turns, before, after, shared=""):
    body = f"void *w(void *p) {{ int i; for (i = 0; i < {turns}; i++) {{ {before} c = c + 1; {after} }} return 0; }}\n"
    return threaded(shared + "int c;\n" + body, ["w"] * threads, f"c == {threads * turns}")


def mutex(threads, turns):
    return counting(threads, turns, "pthread_mutex_lock(&m);", "pthread_mutex_unlock(&m);", "pthread_mutex_t m = PTHREAD_MUTEX_INITIALIZER;\n")


def sections(threads, turns):
    return counting(threads, turns, "__VERIFIER_atomic_begin();", "__VERIFIER_atomic_end();", "void __VERIFIER_atomic_begin(void); void __VERIFIER_atomic_end(void);\n")


def bare(threads, turns, check):
    """A counter without a lock: increments may be lost, but it never passes their number, nor stays below two where each thread has two."""
    return threaded("int c;\n" + f"void *w(void *p) {{ int i; for (i = 0; i < {turns}; i++) {{ c = c + 1; }} return 0; }}\n", ["w"] * threads, check)


def ticket(threads):
    head = "void __VERIFIER_assume(int b);\nint next, serving, c;\nint __VERIFIER_atomic_draw(void) { int mine = next; next = mine + 1; return mine; }\n"
    head += "void *w(void *p) { int mine = __VERIFIER_atomic_draw(); __VERIFIER_assume(serving == mine); c = c + 1; serving = mine + 1; return 0; }\n"
    return threaded(head, ["w"] * threads, f"c == {threads}")


def peterson(rounds):
    head = "void __VERIFIER_assume(int b);\nint f0, f1, turn, inside;\n"
    for own, other, mine in (("f0", "f1", 1), ("f1", "f0", 2)):
        body = f"{own} = 1; turn = {mine}; __VERIFIER_assume({other} == 0 || turn != {mine}); inside = {mine}; assert(inside == {mine}); {own} = 0;"
        head += f"void *w{mine}(void *p) {{ int i; for (i = 0; i < {rounds}; i++) {{ {body} }} return 0; }}\n"
    return threaded(head, ["w1", "w2"], "1")


def fibonacci(turns, most):
    """Two threads that add to each other's number (the benchmark fib_bench of SV-COMP), with sections."""
    head = "void __VERIFIER_atomic_begin(void); void __VERIFIER_atomic_end(void);\nint i = 1, j = 1;\n"
    for name, step in (("a", "i = i + j;"), ("b", "j = j + i;")):
        body = f"__VERIFIER_atomic_begin(); {step} __VERIFIER_atomic_end();"
        head += f"void *{name}(void *p) {{ int k; for (k = 0; k < {turns}; k++) {{ {body} }} return 0; }}\n"
    return threaded(head, ["a", "b"], f"i <= {most} && j <= {most}")


def buffering(copies):
    head, names, check = "", [], []
    for i in range(copies):
        head += f"int x{i}, y{i}, r{i}, s{i};\nvoid *a{i}(void *p) {{ x{i} = 1; r{i} = y{i}; return 0; }}\nvoid *b{i}(void *p) {{ y{i} = 1; s{i} = x{i}; return 0; }}\n"
        names += [f"a{i}", f"b{i}"]
        check.append(f"r{i} == 1 || s{i} == 1")
    return threaded(head, names, " || ".join(check))
