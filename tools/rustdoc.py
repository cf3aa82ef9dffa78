"""Reads the public surface of a Rust crate from rustdoc's JSON, as lines that don't depend on the crate's modules.

A line is `KEY` or `KEY: SIGNATURE`. Type aliases are expanded, lifetimes are left out, and type parameters are numbered.
"""
import json

# Traits of the compiler's own.
INTERNAL = {"StructuralPartialEq", "Freeze", "TrivialClone", "UnsafeUnpin"}


class Surface:
    """The public items of a crate, by their paths. `lines` has a signature for each key, and `must_use` the keys that have that
    attribute. An item with several paths is described under the shortest."""

    def __init__(self, path, root=""):
        with open(path, encoding="utf-8") as file:
            found = json.load(file)
        self.index, self.paths = found["index"], found["paths"]
        self.names, self.lines, self.must_use = {}, {}, set()
        items = list(self.items(found["root"], root, set()))
        for name, it in items:
            # The shortest path is the one that callers write.
            if len(name) < len(self.names.get(it["id"], name + "x")):
                self.names[it["id"]] = name
        for name, it in items:
            self.item(name, it)

    def at(self, number):
        return self.index.get(str(number))

    # ---- paths

    def items(self, number, prefix, seen):
        """Yields the public items of a module, each with its path. Hidden items are left out."""
        module = self.at(number)
        if number in seen or module is None:
            return
        for it in filter(None, map(self.at, module["inner"]["module"]["items"])):
            if any("doc(hidden)" in str(attribute) for attribute in it["attrs"]):
                continue
            yield from self.named(it, prefix, seen | {number})

    def named(self, it, prefix, seen):
        """Yields a public item of a module with its path, and the items of the module that it is or imports."""
        kind, inner = next(iter(it["inner"].items()))
        if it["visibility"] != "public" and kind != "macro":
            return
        if kind == "use":
            target = self.at(inner["id"])
            if inner["is_glob"] and target:
                yield from self.items(inner["id"], prefix, seen)
            elif target:
                yield from self.named({**target, "name": inner["name"], "visibility": "public"}, prefix, seen)
        elif kind == "module":
            yield prefix + it["name"], it
            yield from self.items(it["id"], f"{prefix}{it['name']}::", seen)
        else:
            yield prefix + it["name"], it

    # ---- types

    def path(self, it, bound):
        """Returns a named type with its arguments. An alias is replaced by its type."""
        target = self.at(it["id"])
        arguments = [self.type(more["type"], bound) for more in self.arguments(it) if "type" in more]
        if target and "type_alias" in target["inner"]:
            alias = target["inner"]["type_alias"]
            return self.type(alias["type"], {**bound, **self.taken(alias["generics"], arguments, bound)})
        known = self.paths.get(str(it["id"]), {"path": [it["path"]]})["path"]
        name = self.names.get(it["id"], known[-1].rpartition("::")[2])
        # The values of CBOR are another crate's in coset 0.4.2.
        name = name.rpartition("::")[2] if name.startswith("cbor::") else name
        whole = name + self.called(it, bound) + (f"<{', '.join(arguments)}>" if arguments else "")
        return "Self" if whole == bound.get("") else whole

    def taken(self, generics, arguments, bound):
        """Returns the type for each type parameter of an alias: its argument, or else its default."""
        types = [it for it in generics["params"] if "type" in it["kind"]]
        defaults = [it["kind"]["type"]["default"] for it in types[len(arguments) :]]
        return dict(zip([it["name"] for it in types], [*arguments, *(self.type(it, bound) for it in defaults if it)]))

    @staticmethod
    def arguments(it):
        return ((it.get("args") or {}).get("angle_bracketed") or {}).get("args", [])

    def called(self, it, bound):
        """Returns the arguments of a closure's trait."""
        closure = (it.get("args") or {}).get("parenthesized")
        if not closure:
            return ""
        inputs = ", ".join(self.type(more, bound) for more in closure["inputs"])
        return f"({inputs})" + (f" -> {self.type(closure['output'], bound)}" if closure["output"] else "")

    def type(self, it, bound):
        """Returns a type. `bound` has the names of the type parameters in scope, and under an empty name that of `Self`."""
        kind, inner = next(iter(it.items()))
        if kind == "resolved_path":
            return self.path(inner, bound)
        if kind == "generic":
            return bound.get(inner, inner)
        if kind == "borrowed_ref":
            return f"&{'mut ' if inner['is_mutable'] else ''}{self.type(inner['type'], bound)}"
        if kind == "slice":
            return f"[{self.type(inner, bound)}]"
        if kind == "array":
            return f"[{self.type(inner['type'], bound)}; {inner['len']}]"
        if kind == "tuple":
            return f"({', '.join(self.type(more, bound) for more in inner)})"
        if kind == "impl_trait":
            return f"impl {self.bounds(inner, bound)}"
        if kind == "qualified_path":
            return f"{self.type(inner['self_type'], bound)}::{inner['name']}"
        return str(inner)

    def bounds(self, found, bound):
        """Returns the bounds of a type parameter, sorted. `Sized` and lifetimes are left out."""
        traits = [it["trait_bound"]["trait"] for it in found if "trait_bound" in it]
        return " + ".join(sorted({self.path(it, bound) for it in traits} - {"Sized"}))

    def parameters(self, generics, bound):
        """Returns the type parameters of an item with their bounds, and adds their numbers to `bound`."""
        taken = [it for it in generics["params"] if "type" in it["kind"]]
        for it in taken:
            bound[it["name"]] = f"T{len(bound)}"
        clauses = [it["bound_predicate"] for it in generics["where_predicates"] if "bound_predicate" in it]
        found = []
        for it in taken:
            more = [clause["bounds"] for clause in clauses if clause["type"] == {"generic": it["name"]}]
            limits = self.bounds(sum(more, it["kind"]["type"]["bounds"]), bound)
            found.append(bound[it["name"]] + (f": {limits}" if limits else ""))
        return f"<{', '.join(found)}>" if found else ""

    # ---- items

    def add(self, key, signature, it):
        self.lines[key] = signature
        if any("must_use" in str(attribute) for attribute in it["attrs"]):
            self.must_use.add(key)

    def item(self, name, it):
        kind, inner = next(iter(it["inner"].items()))
        bound = {"": name}
        if name != self.names[it["id"]]:
            self.add(f"{'fn' if kind == 'function' else kind} {name}", f"as {self.names[it['id']]}", it)
        elif kind in ("struct", "enum", "trait"):
            hidden = " { .. }" if self.is_partly_hidden(kind, inner, it) else ""
            parents = self.bounds(inner["bounds"], bound) if kind == "trait" else ""
            self.add(f"{kind} {name}", (self.parameters(inner["generics"], bound) + parents + hidden).strip(), it)
            getattr(self, kind)(name, it, bound)
        elif kind == "function":
            self.function(name, it, bound)
        elif kind in ("constant", "static"):
            self.add(f"const {name}", self.type(inner["type"], bound), it)
        elif kind == "type_alias":
            signature = self.parameters(inner["generics"], bound)
            self.add(f"type {name}", f"{signature} = {self.type(inner['type'], bound)}".strip(), it)
        else:
            self.add(f"{kind} {name}", "", it)

    @staticmethod
    def is_partly_hidden(kind, inner, it):
        """Returns true if a struct has private fields, or the item has the attribute `non_exhaustive`."""
        fields = inner["kind"] if kind == "struct" else None
        plain = fields.get("plain", {}) if isinstance(fields, dict) else {}
        private = plain.get("has_stripped_fields") or None in (fields.get("tuple", []) if isinstance(fields, dict) else [])
        return bool(private) or any("non_exhaustive" in str(attribute) for attribute in it["attrs"])

    def function(self, name, it, bound):
        inner, bound = it["inner"]["function"], dict(bound)
        generics = self.parameters(inner["generics"], bound)
        inputs = ", ".join(self.type(more, bound) for _, more in inner["sig"]["inputs"])
        output = inner["sig"]["output"]
        arrow = f" -> {self.type(output, bound)}" if output else ""
        self.add(f"fn {name}", f"{'const ' if inner['header']['is_const'] else ''}{generics}({inputs}){arrow}", it)

    def struct(self, name, struct, bound):
        kind = struct["inner"]["struct"]["kind"]
        numbers = kind.get("tuple") or kind.get("plain", {}).get("fields", []) if isinstance(kind, dict) else []
        for it in filter(None, map(self.at, filter(None, numbers))):
            self.add(f"field {name}.{it['name']}", self.type(it["inner"]["struct_field"], bound), it)
        self.impls(name, struct, struct["inner"]["struct"]["impls"])

    def enum(self, name, enum, bound):
        for it in filter(None, map(self.at, enum["inner"]["enum"]["variants"])):
            kind = it["inner"]["variant"]["kind"]
            numbers = kind.get("tuple") or kind.get("struct", {}).get("fields", []) if isinstance(kind, dict) else []
            fields = ", ".join(self.type(self.at(field)["inner"]["struct_field"], bound) for field in numbers)
            number = (it["inner"]["variant"]["discriminant"] or {}).get("value", "")
            self.add(f"variant {name}::{it['name']}", f"({fields})" if fields else number, it)
        self.impls(name, enum, enum["inner"]["enum"]["impls"])

    def trait(self, name, trait, bound):
        for it in filter(None, map(self.at, trait["inner"]["trait"]["items"])):
            kind, more = next(iter(it["inner"].items()))
            if kind == "function":
                self.function(f"{name}::{it['name']}", it, {"": name})
                self.lines[f"fn {name}::{it['name']}"] += "" if more["has_body"] else ";"
            elif kind == "assoc_const":
                self.add(f"const {name}::{it['name']}", self.type(more["type"], bound) + ("" if more["value"] else ";"), it)
            else:
                self.add(f"type {name}::{it['name']}", self.bounds(more["bounds"], bound), it)

    def impls(self, name, owner, numbers):
        """Adds the traits of a type, and its functions and constants."""
        traits = set()
        for it in filter(None, map(self.at, numbers)):
            found, own = it["inner"]["impl"], {"": ""}
            trait, of = found["trait"], found["for"].get("resolved_path")
            if of and of["id"] != owner["id"]:
                # An `impl` for another type, whose trait has this one as its argument.
                continue
            self.parameters(found["generics"], own)
            own[""] = self.type(found["for"], own)
            if trait is None:
                self.functions(name, found, own)
            elif not found["is_negative"] and (self.at(trait["id"]) or not found["blanket_impl"]):
                told = self.path(trait, own)
                # A trait may have the type's own name.
                traits.add(trait["path"] if told == "Self" else told)
        self.lines[f"impl {name}"] = ", ".join(sorted(traits - INTERNAL))

    def functions(self, name, found, bound):
        """Adds the functions and constants of an `impl` without a trait."""
        for it in filter(None, map(self.at, found["items"])):
            if it["visibility"] == "public" and "function" in it["inner"]:
                self.function(f"{name}::{it['name']}", it, bound)
            elif it["visibility"] == "public":
                self.add(f"const {name}::{it['name']}", self.type(it["inner"]["assoc_const"]["type"], bound), it)
