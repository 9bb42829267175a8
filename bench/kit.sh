# What measures from nothing works with a kit of its own, made of links: rt keeps its work beside the kit, so nothing that another copy of the
# repository kept on this machine is taken, and nothing is kept for others. This file is read by bench/gate.sh and bench/build.sh.

# Lays a kit by links in the folder, with its rt in FOLDER/rattle/bin.
lay_kit() {
    local room="$1" kit file
    kit="$(dirname "$(dirname "$(readlink -f "$(command -v rt)")")")"
    mkdir -p "$room/rattle/bin"
    for file in "$kit"/*; do
        [ "${file##*/}" = bin ] || ln -s "$file" "$room/rattle/"
    done
    for file in "$kit"/bin/*; do
        ln -s "$file" "$room/rattle/bin/"
    done
    rm "$room/rattle/bin/"{rt,rtlib.py}
    cp -a "$kit/bin/rt" "$kit/bin/rtlib.py" "$room/rattle/bin/"
}
