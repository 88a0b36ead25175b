# shellcheck shell=bash
# The options --install, --uninstall and --dist of ./uringwalk: tools/setup reads this file. It uses that script's variables
# top (the repository), program (the proved program) and prefix (PREFIX as a whole path).

# The list of what is installed, below PREFIX. A line is a file, or a folder that was made, which ends in a slash: a
# name below PREFIX, PREFIX itself as ./, or the whole path of a folder above it.
readonly list=share/uringwalk/installed

fail() {
  echo "uringwalk: $*" >&2
  exit 1
}

# Runs a command that prints nothing; if it fails, why is its message.
attempt() {
  why=$(LC_ALL=C "$@" 2>&1) && return
  why=${why%%$'\n'*}
  why=${why#*: }
  return 1
}

# Reads the version, and the line of the kit, from the one place where they are written.
read_version() {
  local line
  line=$(sed -n 's/^pub const VERSION: &str = "\(.*\)";$/\1/p' "${top:?}/crates/command_line/src/version.rt" 2>/dev/null)
  version=${line%%\\n*}
  kit=${line#*\\n}
  why="crates/command_line/src/version.rt has no version"
  [[ $line == *\\n* ]]
}

# Copies a text of install/, with the version and the kit's line in the place of their names.
fill_in() {
  sed -e "s/@VERSION@/$version/g" -e "s/@KIT@/$kit/g" "$top/install/$1" >"$2" && chmod 644 "$2"
}

# Makes a tree of all files that are installed, as they are below PREFIX, and the list of them. A page goes with them.
make_tree() {
  local tree=$1 page=${2-} share=$1/share file
  mkdir -p "$tree/bin" "$tree/libexec/uringwalk" "$share/man/man1" "$share/bash-completion/completions" \
    "$share/zsh/site-functions" "$share/fish/vendor_completions.d" "$share/uringwalk" &&
    install -m 755 "${program:?}" "$tree/libexec/uringwalk/uringwalk" &&
    install -m 755 "$top/uringwalk" "$tree/bin/uringwalk" &&
    fill_in uringwalk.1 "$share/man/man1/uringwalk.1" &&
    install -m 644 "$top/install/uringwalk.bash" "$share/bash-completion/completions/uringwalk" &&
    install -m 644 "$top/install/uringwalk.zsh" "$share/zsh/site-functions/_uringwalk" &&
    install -m 644 "$top/install/uringwalk.fish" "$share/fish/vendor_completions.d/uringwalk.fish" &&
    install -m 644 "$top/docs/script.schema.json" "$share/uringwalk/script.schema.json" || return
  while IFS= read -r file; do
    install -D -m 644 "$top/examples/$file" "$share/uringwalk/examples/$file" || return
  done < <(find "$top/examples" -type f -printf '%P\n')
  make_real "$tree" || return
  [ -z "$page" ] || install -m 644 "$page" "$share/uringwalk/uringwalk.html" || return
  { find "$tree" -type f -printf '%P\n' && echo "$list"; } | LC_ALL=C sort >"$tree.list" &&
    install -m 644 "$tree.list" "$tree/$list"
}

# Adds uringwalk-real, where the C compiler is there that it needs.
make_real() {
  local file
  command -v cc >/dev/null 2>&1 || return 0
  install -m 755 "$top/tools/real/uringwalk-real" "$1/bin/uringwalk-real" &&
    ln "$1/share/bash-completion/completions/uringwalk" "$1/share/bash-completion/completions/uringwalk-real" &&
    ln "$1/share/fish/vendor_completions.d/uringwalk.fish" "$1/share/fish/vendor_completions.d/uringwalk-real.fish" || return
  for file in "$top"/tools/real/*.py "$top/tools/real/kernel.c"; do
    install -D -m 644 "$file" "$1/share/uringwalk/real/${file##*/}" || return
  done
}

# Makes a folder for the script's own files. It is removed when the script ends, and so is what leftover names.
make_scratch() {
  leftover=()
  trap 'rm -rf -- "${leftover[@]}"' EXIT
  attempt mktemp -d || return
  scratch=$why
  leftover+=("$scratch")
}

# Reads the list of an earlier install into old_files and old_folders. A folder above another PREFIX is left out: the
# tree was moved.
read_list() {
  local line
  old_files=()
  old_folders=()
  [ -e "${prefix:?}/$list" ] || return 0
  attempt cat -- "$prefix/$list" || return
  while IFS= read -r line; do
    case $line in
      /*/) [[ $prefix/ != "$line"* ]] || old_folders+=("$line") ;;
      '' | /* | ../* | */../* | */..)
        why="$prefix/$list has a line that --install doesn't write: $line"
        return 1
        ;;
      */) old_folders+=("$line") ;;
      *) old_files+=("$line") ;;
    esac
  done <<<"$why"
}

# Prints the path of a folder of the list.
path_of() {
  case $1 in
    ./) echo "$prefix" ;;
    /*) echo "${1%/}" ;;
    *) echo "$prefix/${1%/}" ;;
  esac
}

# Removes those of the list's folders that are empty, the inner ones first.
remove_folders() {
  local folder
  for folder in "$@"; do path_of "$folder"; done | LC_ALL=C sort -r | while IFS= read -r folder; do
    rmdir -- "$folder" 2>/dev/null
  done
}

# Makes a folder and those above it that are missing, and notes each in made.
make_folder() {
  [ ! -d "$1" ] || return 0
  make_folder "$(dirname "$1")" || return
  case $1 in
    "$prefix") made+=("./") ;;
    "$prefix"/*) made+=("${1#"$prefix"/}/") ;;
    *) made+=("$1/") ;;
  esac
  attempt mkdir -m 755 -- "$1"
}

# Makes an empty file next to a place. Its name begins with the install's mark, by which undo finds it.
make_next_to() {
  attempt mktemp -- "${1%/*}/$mark.XXXXXX" && return
  why="${1%/*}: ${why##*: }"
  return 1
}

# Copies a file next to its place.
stage() {
  local place=$prefix/$2
  make_folder "${place%/*}" || return
  why="$place is a folder"
  [ ! -d "$place" ] || [ -L "$place" ] || return
  make_next_to "$place" || return
  staged[$2]=$why
  attempt cp --preserve=mode -- "$1" "$why"
}

# Copies what is in a place next to it, if there is something, so that it can be put back.
keep() {
  local place=$prefix/$1 copy
  [ -e "$place" ] || [ -L "$place" ] || return 0
  make_next_to "$place" || return
  copy=$why
  attempt cp -aT --remove-destination -- "$place" "$copy" && kept[$1]=$copy
}

# Moves a staged file into its place.
move_in() {
  keep "$1" || return
  placed+=("$1")
  attempt mv -fT -- "${staged[$1]}" "$prefix/$1"
}

# Stages the list, with the folders that were made, now or by earlier installs, and are still there.
stage_list() {
  local folder
  {
    cat "$tree/$list"
    for folder in "${made[@]}" "${old_folders[@]}"; do
      [ ! -d "$(path_of "$folder")" ] || echo "$folder"
    done
  } | LC_ALL=C sort -u >"$scratch/list" && chmod 644 "$scratch/list" && stage "$scratch/list" "$list"
}

stage_all() {
  local file
  for file in "${files[@]}"; do
    stage "$tree/$file" "$file" || return
  done
  make_folder "$prefix/${list%/*}" && stage_list
}

# Moves all files into their places, and removes what an earlier install had and this one doesn't have.
place_all() {
  local file
  for file in "${files[@]}"; do
    move_in "$file" || return
  done
  for file in "${old_files[@]}"; do
    if [ ! -e "$tree/$file" ]; then
      keep "$file" && attempt rm -f -- "$prefix/$file" || return
    fi
  done
  move_in "$list"
}

# Removes what the install made next to the places.
remove_marked() {
  local file folder
  for file in "${files[@]}" "${old_files[@]}" "$list"; do
    echo "$prefix/${file%/*}"
  done | sort -u | while IFS= read -r folder; do
    rm -f -- "$folder/$mark".*
  done
}

# Puts everything back as it was before the install.
undo() {
  local file back=yes
  for file in "${placed[@]}"; do
    [ -n "${kept[$file]-}" ] || rm -f -- "$prefix/$file" || back=""
  done
  for file in "${!kept[@]}"; do
    mv -fT -- "${kept[$file]}" "$prefix/$file" || back=""
  done
  [ -z "$back" ] || remove_marked
  remove_folders "${made[@]}"
  [ -n "$back" ]
}

give_up() {
  trap '' HUP INT TERM
  local reason=$why
  undo 2>/dev/null || fail "not all was put back below $prefix, where the old files are named $mark.*: $reason"
  fail "nothing was installed below $prefix: $reason"
}

# Installs all files below prefix, or none of them.
install_tree() {
  local tree mark files=() made=() placed=() old_files=() old_folders=() why=""
  local -A staged=() kept=()
  make_scratch || fail "nothing was installed below $prefix: $why"
  tree=$scratch/tree
  mark=.uringwalk.${scratch##*.}
  { read_version && attempt make_tree "$tree" && read_list; } || fail "nothing was installed below $prefix: $why"
  mapfile -t files < <(grep -vxF "$list" "$tree/$list")
  trap 'why=interrupted; give_up' HUP INT TERM
  { stage_all && place_all; } || give_up
  trap '' HUP INT TERM
  remove_marked
  remove_folders "${old_folders[@]}"
  { stage_list && mv -fT -- "${staged[$list]}" "$prefix/$list"; } 2>/dev/null || remove_marked
  echo "uringwalk $version is installed below $prefix"
}

remove() {
  attempt rm -f -- "$prefix/$1" || fail "not all was removed from $prefix: $why"
}

# Removes what the list names, and last the list.
uninstall_tree() {
  local file why="" old_files old_folders
  [ -e "$prefix/$list" ] || fail "nothing is installed below $prefix: there is no $prefix/$list"
  read_list || fail "$why"
  for file in "${old_files[@]}"; do
    [ "$file" = "$list" ] || remove "$file"
  done
  remove "$list"
  remove_folders "${old_folders[@]}"
  echo "uringwalk is removed from $prefix"
}

# Packs a folder of scratch, with sorted names, no owner's name, and one time for all files.
pack() {
  set -o pipefail
  (cd "$scratch" && find "$1" -type f | LC_ALL=C sort |
    tar --format=ustar --owner=0 --group=0 --numeric-owner --mtime="@$2" --no-recursion --verbatim-files-from -T - -cf - |
    gzip -9n) >"$scratch/tar.gz"
}

# Copies a file of scratch into the current folder, under a new name.
stage_here() {
  attempt mktemp -- ./.uringwalk.XXXXXX || return
  leftover+=("$why")
  here+=("$why")
  attempt cp -- "$1" "$why" && attempt chmod 644 -- "${here[-1]}"
}

# Makes the tarball of the same tree in the current folder, and the file of its SHA-256. Its bytes depend on the files
# and on the time of the last commit alone. It has the page with the program, where that can be made.
make_dist() {
  local why="" name time sum here=() page without=""
  { make_scratch && read_version; } || fail "$why"
  name=uringwalk-$version-x86_64-linux
  attempt git -C "$top" log -1 --format=%ct || fail "the time of the last commit can't be read: $why"
  time=$why
  page=$scratch/page.html
  attempt "$top/tools/web/uringwalk-web" "$page" || { page="" without=", without the page: $why"; }
  { attempt make_tree "$scratch/$name" "$page" &&
    attempt fill_in README "$scratch/$name/README" && attempt pack "$name" "$time"; } || fail "$why"
  sum=$(sha256sum <"$scratch/tar.gz")
  echo "${sum%% *}  $name.tar.gz" >"$scratch/sum"
  { stage_here "$scratch/tar.gz" && stage_here "$scratch/sum" && attempt mv -fT -- "${here[0]}" "$name.tar.gz" &&
    attempt mv -fT -- "${here[1]}" "$name.tar.gz.sha256"; } || fail "no tarball was made: $why"
  echo "$name.tar.gz and $name.tar.gz.sha256 are made$without"
}
