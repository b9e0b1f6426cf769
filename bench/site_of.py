"""Makes a site of many hosts, the same for the same sizes: account files, inventories, and a map."""
import os
import random

# how many directories an inventory has at most
FOLDERS = 997


def write_full(mtree, numbers, files, rng):
    """An inventory of full paths."""
    mtree.write("#mtree\n")
    folders = [".", "./home", *(f"./home/d{index}" for index in range(min(files // 3, FOLDERS)))]
    for folder in folders:
        mtree.write(f"{folder} gid={numbers[0]} uid={numbers[0]} type=dir\n")
    for index in range(files - len(folders)):
        number = numbers[rng.randrange(len(numbers))]
        mtree.write(f"./home/d{index % (len(folders) - 2)}/file{index} gid={number} uid={number} type=file\n")


def write_netbsd(mtree, numbers, files, rng):
    """An inventory as NetBSD's `mtree -c` writes one: directory by directory, with `/set`, `..` and joined lines."""

    def write(name, words):
        mtree.write(f"{name:15} {words} \\\n                time={rng.randrange(10 ** 9)}.{rng.randrange(10 ** 9)}\n")

    def write_set(number):
        mtree.write(f"\n/set type=file uid={number} gid={number} mode=0644 nlink=1 flags=none\n")

    folders = min(files // 3, FOLDERS)
    mtree.write("#\t   user: root\n#\tmachine: host\n")
    write_set(numbers[0])
    write(".", "type=dir mode=0755 nlink=3 size=4096")
    write("home", "type=dir mode=0755 nlink=3 size=4096")
    for folder in range(folders):
        owner = rng.choice(numbers)
        write(f"d{folder}", f"type=dir mode=0755 uid={owner} gid={owner} nlink=2 size=4096")
        write_set(owner)
        for index in range(folder, files - 2 - folders, folders):
            other = f"uid={rng.choice(numbers)} " if rng.randrange(10) == 0 else ""
            write(f"    file{index}.txt", f"{other}size={rng.randrange(10 ** 6)}")
        mtree.write(f"# ./home/d{folder}\n..\n\n")
    mtree.write("# ./home\n..\n\n..\n")


def write_host(folder, users, files, rng, write_inventory=write_full):
    """One host: every user has its own group, and numbers are drawn anew on each host."""
    os.makedirs(folder, exist_ok=True)
    numbers = list(range(1000, 1000 + users))
    rng.shuffle(numbers)
    with open(f"{folder}/passwd", "w") as passwd, open(f"{folder}/group", "w") as group:
        group.write("users:x:100:\n")
        for index, number in enumerate(numbers):
            passwd.write(f"user{index}:x:{number}:{number}::/home/user{index}:/bin/sh\n")
            group.write(f"user{index}:x:{number}:\n")
    with open(f"{folder}/mtree", "w") as mtree:
        write_inventory(mtree, numbers, files, rng)


def write_site(folder, hosts, users, files, write_inventory=write_full):
    """All hosts, and the map that gives user and group i the number 1000 + i. Answers the words that name the hosts."""
    rng = random.Random(20261122)
    words = []
    for host in range(hosts):
        name = f"h{host}"
        write_host(f"{folder}/{name}", users, files, rng, write_inventory)
        words.append(f"{name}={folder}/{name}")
    with open(f"{folder}/map", "w") as text:
        text.write("group users 100\n")
        for index in range(users):
            text.write(f"user user{index} {1000 + index}\ngroup user{index} {1000 + index}\n")
    return words
