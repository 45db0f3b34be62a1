"""Writes C texts that are as large as the limits allow where each loop runs at most TURNS times, each large in one way.

usage: texts.py FOLDER TURNS
"""

import sys

WEIGHT = 32768
ACCESSES = 1024
CELLS = 32


def main_of(body, before=""):
    return f"{before}int main() {{ int x = 1, y = 2; {body} return 0; }}\n"


# A loop without a test weighs TURNS + 1 beside its body; `main_of` weighs 3 at most.
def in_loop(statement, weight, turns):
    count = (WEIGHT - 8 - (turns + 1)) // (weight * turns)
    return "for (;;) { " + f"{statement} " * count + "}"


def texts(turns):
    # sums of locals: 2 a statement
    yield "sums", main_of(in_loop("x = x + y;", 2, turns))
    # an element of an array with 32 cells is put into another: 65 a statement
    arrays = f"int a[{CELLS}] = {{0}}, b[{CELLS}] = {{0}}; "
    yield "local_arrays", main_of(arrays + in_loop("a[x] = b[y];", 65, turns))
    # the same of shared arrays: 64 accesses and 1 a statement
    shared = f"int a[{CELLS}], b[{CELLS}]; "
    yield "shared_arrays", main_of("a[x] = b[y]; " * (ACCESSES // 64), shared)
    # tests and branches: 3 a statement
    yield "branches", main_of(in_loop("if (x) y = 3; else y = 4;", 3, turns))
    # quotients: 33 a statement
    yield "quotients", main_of(in_loop("x = y / x;", 33, turns))
    # calls in calls, each with a test: 8 a statement
    calls = "int g(int a) { return a ? 1 : 2; } int f(int a) { return g(a); } "
    yield "calls", main_of(in_loop("x = f(y);", 8, turns), calls)
    # loops in loops without anything else
    loops = (WEIGHT - 8) // ((turns + 1) * (turns + 1))
    yield "loops", main_of("for (;;) for (;;) ; " * loops)
    # as many threads as there may be, each with its share of the weight
    share = (WEIGHT - 4 * 63 - 80) // 63 // 2
    sums = "x = x + y; " * (share - 2)
    thread = f"void *f(void *p) {{ int x = 1, y = 2; {sums}return 0; }} "
    yield "threads", main_of("pthread_t t; " + "pthread_create(&t, 0, f, 0); " * 63, thread)
    # a go number and a lock at a time: 2 accesses, 2 a statement
    mutex = "pthread_mutex_t m; "
    yield "locks", main_of("pthread_mutex_lock(&m); pthread_mutex_unlock(&m); " * (ACCESSES // 3), mutex)
    # what weighs nothing: arrays without values, of whose cells each is a step; numbers alone, which are no step
    cells = ", ".join(f"a{i}[{CELLS}]" for i in range(8100))
    yield "weightless_arrays", main_of("for (;;) { int " + cells + "; }")
    yield "weightless_numbers", main_of("for (;;) { " + " ".join(f"{i};" for i in range(8000)) + " }")
    # the same in a loop in a loop: numbers, statements that are nothing, and names behind many others
    numbers = " ".join(f"{i};" for i in range(2, 30002))
    yield "nested_numbers", main_of("for (;;) for (;;) { " + numbers + " }")
    yield "nested_nothing", main_of("for (;;) for (;;) { " + "; " * 60000 + "}")
    names = ", ".join(f"v{i}" for i in range(10000))
    yield "nested_names", main_of("int " + names + "; for (;;) for (;;) { " + "v0; " * 15000 + "}")


folder = sys.argv[1]
for name, text in texts(int(sys.argv[2])):
    with open(f"{folder}/{name}.c", "w") as file:
        file.write(text)
