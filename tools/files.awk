# Reads a task graph file and an architecture file that `dse` accepts, for tools/draw and tools/genes: the names, in the
# order of their numbers. Nothing is refused here but a file that can't be read, and a name that isn't there.
#   read_files(TGFF, ARCH)   TGFF is `-` for none
# gives task_name, message_name, resource_name, link_name, arc_link, arc_tail, arc_head, option_task and option_resource,
# each with its number of entries in count["task"], count["message"] and so on.

# Ends with a message.
function stop(text) {
  print text > "/dev/stderr"
  stopped = 1
  exit 1
}

# The next line of a file with words, in `words`; how many they are, 0 at the end.
function next_words(file, words,   line, found, n) {
  while ((found = (getline line < file)) > 0) {
    sub(/#.*/, "", line)
    gsub(/\r/, " ", line)
    n = split(line, words, " ")
    if (n > 0) return n
  }
  if (found < 0) stop(file ": can't be read")
  close(file)
  return 0
}

# A whole number without leading zeros.
function plain(number) {
  sub(/^0+/, "", number)
  return number == "" ? "0" : number
}

# The number of a name in a list of `count` names.
function number_of(name, list, kind,   i) {
  for (i = 0; i < count[kind]; i++) if (list[i] == name) return i
  return -1
}

function is_number(word) {
  return word ~ /^[+-]?([0-9]+[.]?[0-9]*|[.][0-9]+)([eE][+-]?[0-9]+)?$/
}

# Whether a cell reads as a number, within the last place that is kept.
function reads_as(word, number,   difference) {
  if (!is_number(word)) return 0
  difference = word - number
  return difference < 1e-12 && difference > -1e-12
}

# Tasks and messages of the graphs, with the graph's index before their names, and the rows of all tables.
function read_graphs(file,   words, n, block, i, text) {
  while ((n = next_words(file, words)) > 0) {
    if (block == "") {
      if (words[1] ~ /^@/ && words[n] == "{") block = substr(words[1], 2) " " (n > 2 ? plain(words[2]) : 0)
    } else if (words[1] == "}") {
      block = ""
    } else if (block ~ /^TASK_GRAPH /) {
      read_graph_line(substr(block, 12), words)
    } else {
      text = words[1]
      for (i = 2; i <= n; i++) text = text " " words[i]
      row[block, row_count[block]++] = text
    }
  }
}

function read_graph_line(graph, words) {
  if (words[1] == "TASK") {
    task_type[count["task"]] = words[4]
    task_name[count["task"]++] = graph "." words[2]
    graph_tasks = count["task"]
  } else if (words[1] == "ARC") {
    message_name[count["message"]++] = graph "." words[2]
  }
}

function read_architecture(file,   words, n) {
  while ((n = next_words(file, words)) > 0) {
    if (words[1] == "task") task_name[count["task"]++] = words[2]
    else if (words[1] == "message") message_name[count["message"]++] = words[2]
    else if (words[1] == "merge") merge(words, n)
    else if (words[1] == "resource") resource_name[count["resource"]++] = words[2]
    else if (words[1] == "link") add_link(words)
    else if (words[1] == "map") add_option(number_of(words[2], task_name, "task"), words[3])
    else if (words[1] == "table") add_options(words, n)
  }
}

function add_option(task, resource) {
  option_task[count["option"]] = task
  option_resource[count["option"]++] = number_of(resource, resource_name, "resource")
}

function add_arc(link, tail, head) {
  arc_link[count["arc"]] = link
  arc_tail[count["arc"]] = number_of(tail, resource_name, "resource")
  arc_head[count["arc"]++] = number_of(head, resource_name, "resource")
}

# A two-way link gives the arc from its first to its second resource and then the arc back.
function add_link(words,   link) {
  link = count["link"]++
  link_name[link] = words[2]
  link_is_two_way[link] = (words[4] == "--")
  add_arc(link, words[3], words[5])
  if (link_is_two_way[link]) add_arc(link, words[5], words[3])
}

# The merged message stands last, and those that it is made of are gone.
function merge(words, n,   gone, i, kept) {
  for (i = 3; i <= n; i++) gone[words[i]] = 1
  kept = 0
  for (i = 0; i < count["message"]; i++) if (!(message_name[i] in gone)) message_name[kept++] = message_name[i]
  message_name[kept++] = words[2]
  count["message"] = kept
}

# An option for each task of the graphs whose type has a row that isn't marked as invalid.
function add_options(words, n,   block, key, i, part, task, place, cells) {
  block = words[2] " " plain(words[3])
  for (i = 5; i <= n; i++) if (split(words[i], part, "=") > 1) key[part[1]] = part[2]
  for (task = 0; task < graph_tasks; task++) {
    for (place = ("rows" in key) ? key["rows"] + 0 : 1; place < row_count[block]; place++) {
      split(row[block, place], cells, " ")
      if (reads_as(cells[1], task_type[task])) break
    }
    if (place >= row_count[block]) continue
    if (!("valid" in key) || !reads_as(cells[key["valid"] + 1], 0)) add_option(task, words[4])
  }
}

function read_files(tgff, arch,   kinds, kind) {
  split("task message resource link arc option", kinds, " ")
  for (kind in kinds) count[kinds[kind]] = 0
  if (tgff != "-") read_graphs(tgff)
  read_architecture(arch)
}
