# The machines of ports/machines, and the libraries for them. It is read with `.` at the top of the repository.
machines=$(sed 's/^#.*//; s/ .*//' ports/machines)

# library_of MACHINE: the folder of its library. There is one for x86-64, however the program is linked.
library_of() {
    case $1 in
        x86_64-*) echo bindings/out ;;
        *) echo "ports/out/$1/library" ;;
    esac
}
