#!/bin/sh
# Builds other solvers of the same job, to be measured beside the program: bench/peers.sh PEERS FOLDER
# PEERS has peer.cpp, which knows MiniSat, CaDiCaL, PicoSAT, BuDDy and the definition of the search itself, and gen.py, which writes the clause
# form of a model and a configuration. Both come into FOLDER, which bench/search.sh is given. On Debian the libraries are in the packages
# libcadical-dev, minisat, picosat and libbdd-dev; the last lines of what the compiler says stand below where one is missing.
set -eu
[ $# -eq 2 ] || { echo "usage: bench/peers.sh PEERS FOLDER" >&2; exit 64; }
mkdir -p "$2"
for name in peer.cpp gen.py; do
    cp -f "$1/$name" "$2/$name"
    chmod u+w "$2/$name"
done
cd "$2"
if g++ -O2 -std=c++17 -static -o peer peer.cpp -lcadical -lminisat -lpicosat -lbdd -lpthread 2>build.log; then
    echo "built $2/peer with all backends"
else
    tail -n 5 build.log >&2
    echo "a library is missing: apt-get install --no-install-recommends g++ libcadical-dev minisat picosat libbdd-dev" >&2
    exit 1
fi
