"""Drives Neovim without a screen: it opens, changes and saves files, and tells what a person would see."""
import contextlib
import json
import subprocess

from .waiting import EDITORS, PATIENCE, Missed, environment, started


class Neovim:
    name, command, package = "Neovim", "nvim", "neovim"
    restart, compile, compile_all = "OberonBspRestart", "OberonBspCompile", "OberonBspCompileAll"

    def __init__(self, home):
        self.home = home
        self.socket = home / "socket"

    def words(self, program, timeout):
        (self.home / "init.lua").write_text(
            f"""vim.opt.runtimepath:prepend({self.text(EDITORS / 'nvim')})
require('oberon-bsp').setup {{ program = {self.text(program)}, timeout = {timeout} }}
"""
        )
        return ["nvim", "-n", "-u", str(self.home / "init.lua")]

    def start(self, program, timeout):
        return started([*self.words(program, timeout), "--headless", "--listen", str(self.socket)], self.home)

    def words_in_terminal(self, program):
        return [*self.words(program, PATIENCE), "--listen", str(self.socket)]

    @staticmethod
    def text(value):
        return json.dumps(str(value), ensure_ascii=False)

    def ask(self, code):
        """The value that a piece of Lua returns, which is to be one that JSON has."""
        answer = self.home / "answer"
        answer.unlink(missing_ok=True)
        # What is printed is cut where it is long.
        code_in_text = code.replace("'", "''")
        expression = f"writefile([json_encode(luaeval('(function() {code_in_text} end)()'))], '{answer}')"
        words = ["nvim", "--server", str(self.socket), "--remote-expr", expression]
        ran = subprocess.run(words, env=environment(self.home), capture_output=True, text=True, timeout=PATIENCE)
        if not answer.exists():
            raise Missed(f"{code} failed: {ran.stdout}{ran.stderr}")
        return json.loads(answer.read_text())

    def go_to_error(self, path):
        """Goes to the last error of a file in its window, as a person does."""
        self.do(
            f"""vim.fn.win_gotoid(vim.fn.win_findbuf(vim.fn.bufnr({self.text(path)}))[1])
            vim.cmd("normal! G") vim.diagnostic.goto_prev()"""
        )

    def is_ready(self):
        """Whether it answers. Its socket is there a moment before it listens."""
        with contextlib.suppress(Missed):
            return self.socket.exists() and self.ask("return true")
        return False

    def do(self, code):
        return self.ask(f"{code} return true")

    def inside(self, path, code):
        return f"vim.api.nvim_buf_call(vim.fn.bufnr({self.text(path)}), function() {code} end)"

    def open(self, path):
        self.do(f"vim.cmd('edit ' .. vim.fn.fnameescape({self.text(path)}))")

    def replace(self, path, old, new):
        self.do(
            f"""local buffer, old, new = vim.fn.bufnr({self.text(path)}), {self.text(old)}, {self.text(new)}
            for row, line in ipairs(vim.api.nvim_buf_get_lines(buffer, 0, -1, false)) do
              local from, to = line:find(old, 1, true)
              if from then
                vim.api.nvim_buf_set_text(buffer, row - 1, from - 1, row - 1, to, vim.split(new, "\\n", true))
                break
              end
            end"""
        )

    def save(self, path):
        self.do(self.inside(path, "vim.cmd('write')"))

    def close(self, path):
        self.do(f"vim.cmd('bwipeout! ' .. vim.fn.bufnr({self.text(path)}))")

    def save_as(self, path, new):
        self.do(self.inside(path, f"vim.cmd('saveas ' .. vim.fn.fnameescape({self.text(new)}))"))

    def rename(self, path, new):
        self.do(self.inside(path, f"vim.cmd('file ' .. vim.fn.fnameescape({self.text(new)}))"))

    def join(self, path):
        self.command_in(path, "OberonBspJoin")

    def state_line(self, path):
        """The line that tells the state, as it is drawn."""
        self.open(path)
        return self.ask("return vim.api.nvim_eval_statusline(vim.o.statusline, {}).str")

    def indented(self, path):
        """The text of a file behind each of its lines was indented."""
        self.do(self.inside(path, 'vim.cmd("silent normal! gg=G")'))
        return self.ask(f'return vim.fn.join(vim.fn.getbufline({self.text(path)}, 1, "$"), "\\n") .. "\\n"')

    def seconds_to_indent(self, path):
        """The processor seconds in which all lines of a file are indented."""
        self.open(path)
        return self.ask('local before = os.clock() vim.cmd("silent normal! gg=G") return os.clock() - before')

    def colour(self, path, text):
        """What the first place of a text is shown as."""
        self.open(path)
        name = self.ask(
            f"""vim.fn.cursor(1, 1)
            local place = vim.fn.searchpos({self.text(chr(92) + "C" + chr(92) + "V" + text)}, "c")
            return vim.fn.synIDattr(vim.fn.synID(place[1], place[2], 1), "name")"""
        )
        return name.removeprefix("oberon").lower()

    def read_again(self, path):
        self.do(self.inside(path, "vim.cmd('edit!')"))

    def command_in(self, path, command):
        self.do(self.inside(path, f"vim.cmd('{command}')"))

    def marks(self, path):
        return self.ask(
            f"""local buffer, marks = vim.fn.bufnr({self.text(path)}), {{}}
            local space = vim.diagnostic.get_namespace(vim.api.nvim_create_namespace("oberon-bsp"))
            local found = vim.diagnostic.get(buffer)
            local underlined = space.user_data.underline_ns or vim.api.nvim_create_namespace("")
            local extmarks = vim.api.nvim_buf_get_extmarks(buffer, underlined, 0, -1, {{ details = true }})
            for number, mark in ipairs(extmarks) do
              local _, row, column, to = unpack(mark)
              local lines = vim.api.nvim_buf_get_lines(buffer, row, to.end_row + 1, false)
              local before = lines[1]:sub(1, column)
              lines[#lines] = lines[#lines]:sub(1, to.end_col)
              lines[1] = lines[1]:sub(column + 1)
              table.insert(marks, {{ before, table.concat(lines, "\\n"), found[number].message }})
            end
            return marks"""
        )

    def kinds(self, path):
        """Whether each mark is an error or a warning."""
        return self.ask(
            f"""return vim.tbl_map(function(it)
              return it.severity == vim.diagnostic.severity.ERROR and "error" or "warning"
            end, vim.diagnostic.get(vim.fn.bufnr({self.text(path)})))"""
        )

    def lines(self):
        """What was said to the person, as a screen of 80 columns shows it."""
        return self.ask("return vim.fn.execute('messages')").splitlines()

    def state(self, path):
        return self.ask(f"return require('oberon-bsp').state(vim.fn.bufnr({self.text(path)})) or ''")

    def listed(self, path):
        """The list of errors, each as its file, line, column, kind, message and code."""
        self.command_in(path, "OberonBspErrors")
        return self.rows()

    def list_in_window(self, path):
        """Opens the list of errors as a person does, with its window."""
        self.open(path)
        self.do("vim.cmd('OberonBspErrors')")

    def rows(self):
        return self.ask(
            """local rows = {}
            for _, it in ipairs(vim.fn.getqflist()) do
              local name = vim.fn.fnamemodify(vim.fn.bufname(it.bufnr), ":t")
              local line = vim.fn.getbufline(it.bufnr, it.lnum)[1] or ""
              table.insert(rows, { name, it.lnum, vim.str_utfindex(line, math.min(it.col - 1, #line)) + 1,
                it.type:upper() == "E" and "error" or "warning", it.text })
            end
            return rows"""
        )

    def visit_first(self):
        return self.ask(
            """vim.cmd("cfirst")
            local line, column = vim.fn.getline("."), vim.fn.col(".")
            return { vim.fn.expand("%:t"), line:sub(column) }"""
        )

    def quit(self):
        subprocess.run(
            ["nvim", "--server", str(self.socket), "--remote-expr", "execute('qall!')"],
            env=environment(self.home), capture_output=True, timeout=PATIENCE,
        )
