# The library from its sources: proved.s, which LLVM made of the proved part, and the C side. The archive hides its calls, the shared object shows them, each with
# a version.
CC = cc
AR = ar
CFLAGS = -O2
SIDES = derrimas finalizers why workers dump
MAJOR := $(shell sed -n 's/^.define DERRIMAS_VERSION_MAJOR //p' include/derrimas_common.h)
EXCEPTIONS = -fexceptions
COMPILE = $(CC) -std=c99 $(CFLAGS) -fno-tree-slp-vectorize $(EXCEPTIONS) -fPIC -Iinclude -Isrc -c

library: lib/libderrimas.a lib/libderrimas.so

lib/libderrimas.a: src/proved.o $(SIDES:%=src/%.hidden.o)
	rm -f $@
	$(AR) rcs $@ $^

lib/libderrimas.so: lib/libderrimas.so.$(MAJOR)
	ln -sf libderrimas.so.$(MAJOR) $@

lib/libderrimas.so.$(MAJOR): src/proved.o $(SIDES:%=src/%.shown.o)
	echo 'DERRIMAS_$(MAJOR) { global: derrimas_*; local: *; };' > src/derrimas.map
	$(CC) -shared -Wl,-soname,libderrimas.so.$(MAJOR) -Wl,-z,defs -Wl,--version-script=src/derrimas.map $^ -pthread -o $@

src/proved.o: src/proved.s
	$(CC) -c $< -o $@

src/workers.hidden.o src/workers.shown.o: EXCEPTIONS =

src/%.hidden.o: src/%.c
	$(COMPILE) -fvisibility=hidden $< -o $@

src/%.shown.o: src/%.c
	$(COMPILE) $< -o $@
