"""Wrong builds of the gateway: each must be noticed by the drill (see `drill`). A build is what is wrong, a file, a
part of it, and what stands there instead."""
import os
import shutil

BUILDS = (
    ("an answer is sent before its line is durable", "gateway.c",
     "    store_flush(&store);\n    link_send();", "    link_send();\n    store_flush(&store);"),
    ("the sums are written before the journal", "store.c",
     "write_all(store->journal, \"journal\", store->lines, store->lines_size);\n",
     "write_all(store->sums, \"sums\", store->marks, store->marks_size);\n    store->marks_size = 0;\n"
     "    write_all(store->journal, \"journal\", store->lines, store->lines_size);\n"),
    ("answers that the host has are delivered again", "recover.c", "if (next > had)", "if (wrote > 0 || next > had)"),
    ("answers that the host has not are dropped", "recover.c", "if (next > had)", "if (next > had + 1)"),
    ("what a crash left behind the last line stays", "recover.c", "if (size > good)", "if (size < good)"),
    ("a generation begins with its sums", "store.c",
     "    write_anew(name, image, size);\n    name_of(name, store->life, store->image, \"journal\");\n",
     "    sum_text(first, store->sum);\n    name_of(name, store->life, store->image, \"sums\");\n"
     "    write_anew(name, first, SUM_SIZE);\n    name_of(name, store->life, store->image, \"image\");\n"
     "    write_anew(name, image, size);\n    name_of(name, store->life, store->image, \"journal\");\n"),
    ("an image is written in place", "files.c", "\"%s.new\", name", "\"%s\", name"),
    ("the image before is not kept", "gateway.c", "uint32_t before = store.image;",
     "uint32_t before = bournejade_position(&store.state);"),
    ("an image is taken whatever its sum", "recover.c", "strncmp(first, sums, SUM_SIZE) == 0 &&\n", "1 &&\n"),
    ("lines are taken whatever their sums", "recover.c", "if (strncmp(text, sums + *n * SUM_SIZE, SUM_SIZE) != 0)",
     "if (end == NULL)"),
    ("the journal is not made durable", "store.c", "    make_durable(store->journal, \"journal\");\n", ""),
    ("the sums are not made durable", "store.c", "    make_durable(store->sums, \"sums\");\n", ""),
    ("a new image is not made durable", "files.c", "    make_durable(file, fresh);\n", ""),
    ("any number of writers", "store.c", "stop(BUSY,", "if (0) stop(BUSY,"),
)


def changed(here, folder, build):
    """A folder with the sources of a wrong build."""
    _, name, old, new = build
    shutil.copytree(here, folder)
    path = os.path.join(folder, name)
    with open(path) as f:
        text = f.read()
    assert text.count(old) == 1, build
    with open(path, "w") as f:
        f.write(text.replace(old, new))
    return folder


def noticed(drill, damage):
    """What notices a wrong build."""
    for name, run in (("kills", lambda: drill.kill(60)), ("windows", drill.windows), ("damage", damage)):
        try:
            run()
        except (AssertionError, SystemExit, ValueError, IndexError):
            return name
    return None
