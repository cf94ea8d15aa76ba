"""tools/memory finds each form of an arm that makes error 21, and no refused allocation that is passed on."""
import tempfile
import unittest
import unittest.mock

from scripts import load, run, write

MEMORY = load("tools/memory")


def source(body, head="fn planted(at: usize) -> Result<u32, Fault>"):
    return f"use a::{{AllocError, NoMemory}};\n\n{head}\n    ensures err {{ IfErr result (λ e. e ≡ OutOfMemory) }}\n{{\n    {body}\n}}\n"


class Memory(unittest.TestCase):
    def found(self, text):
        """The lines that are found in a source of a crate."""
        with tempfile.TemporaryDirectory() as folder:
            write(folder, yaml_one__src__lib="")
            with open(f"{folder}/yaml_one/src/lib.rt", "w", encoding="utf-8") as file:
                file.write(text)
            return [place.text for place in MEMORY.places_below(folder)]

    def assert_found(self, body, count=1):
        self.assertEqual(len(self.found(source(body))), count, body)

    def test_planted_arms(self):
        for body in (
            "let Some(last) = opens.pop() else {\n        return Err(NoMemory);\n    };\n    Ok(last)",
            "if at >= ROOM {\n        return Err(Fault::OutOfMemory);\n    }\n    Ok(at as u32)",
            "match at.checked_add(1) {\n        Some(n) => Ok(n),\n        None => Err(AllocError),\n    }",
            "match u32::try_from(at) {\n        Ok(n) => Ok(n),\n        Err(_) => Err(AllocError),\n    }",
            "read(at).map_err(|_| Fault::OutOfMemory)",
            "match read(at) {\n        Err(Fault::A | Fault::OutOfMemory) => Err(Fault::OutOfMemory),\n        other => other,\n    }",
            "match read(at) {\n        Err(Fault::OutOfMemory) => Ok(0),\n        _ => Err(Fault::OutOfMemory),\n    }",
            "let Ok(n) = u32::try_from(at) else {\n        return Err(Stop::OutOfMemory);\n    };\n    Ok(n)",
            "if let None = given {\n        self.stop = Some(Stop::OutOfMemory);\n    }\n    Ok(0)",
            "match kind {\n        Kind::A => {\n            Err(Fault::OutOfMemory)\n        }\n        Kind::B => Ok(0),\n    }",
        ):
            self.assert_found(body)

    def test_refused_allocations(self):
        for body in (
            "match read(at) {\n        Ok(n) => Ok(n),\n        Err(Fault::OutOfMemory) => Err(Fault::OutOfMemory),\n        Err(_) => Ok(0),\n    }",
            "match read(at) {\n        Err((_, Fault::OutOfMemory)) => {\n            drop(at);\n            Err(Fault::OutOfMemory)\n        }\n        other => other,\n    }",
            "let mut text = String::with_capacity(alloc, at).map_err(|_| Fault::OutOfMemory)?;\n    Ok(0)",
            "match text.push_str(word) {\n        Ok(()) => Ok(0),\n        Err(_) => Err(Stop::OutOfMemory),\n    }",
            "if fault == Fault::OutOfMemory || matches!(fault, Fault::OutOfMemory) {\n        return Ok(1);\n    }\n    Ok(0)",
            "if let Err(Fault::OutOfMemory) = read(at) {\n        return Ok(1);\n    }\n    Ok(0)",
            "/// Err(NoMemory)\n    // Err(NoMemory)\n    say(\"Err(NoMemory)\", 'x', AllocError::from)",
        ):
            self.assert_found(body, 0)

    def test_functions_of_the_sources(self):
        own = "fn grow(at: usize) -> Result<u32, AllocError> {\n    v.push(at)?;\n    Ok(0)\n}\n"
        said = "fn grow(at: usize) -> Result<u32, Fault>\n    ensures { IfErr result (λ fault. fault ≡ Fault.OutOfMemory) }\n{\n    v.push(at)?;\n    Ok(0)\n}\n"
        arm = source("match grow(at) {\n        Ok(n) => Ok(n),\n        Err(_) => Err(Fault::OutOfMemory),\n    }")
        self.assertEqual((self.found(own + arm), self.found(said + arm)), ([], []))
        self.assertEqual(len(self.found("fn grow(at: usize) -> Result<u32, Fault> {\n    Ok(0)\n}\n" + arm)), 1)

    def test_types_and_conversions(self):
        self.assertEqual(self.found("pub enum Stop {\n    TooLong,\n    OutOfMemory,\n}\n\npub struct NoMemory;\n"), [])
        body = "fn from(_error: {0}) -> Stop {{\n        Stop::OutOfMemory\n    }}\n}}\n"
        for error, count in ("AllocError", 0), ("AllocFailed<T>", 0), ("Utf8Error", 1):
            self.assertEqual(len(self.found(f"impl<T: Drop> From<{error}> for Stop {{\n    {body.format(error)}")), count)

    def test_check(self):
        place = MEMORY.Place("yaml_one/src/lib.rt", 7, "planted", "Err(NoMemory)")
        with unittest.mock.patch.dict(MEMORY.REASONS, {}, clear=True):
            self.assertEqual(len(list(MEMORY.faults([place], {}))), 2)
            self.assertEqual(list(MEMORY.faults([place], {"yaml_one": 1})), [])
            self.assertEqual(len(list(MEMORY.faults([place, place], {"yaml_one": 1}))), 3)
        with unittest.mock.patch.dict(MEMORY.REASONS, {"yaml_one/src/lib.rt planted": "why"}, clear=True):
            self.assertEqual(list(MEMORY.faults([place], {})), [])
            self.assertEqual(len(list(MEMORY.faults([], {}))), 1)

    def test_product(self):
        self.assertEqual(run(MEMORY.main, "--check")[0], 0)
        self.assertLessEqual(len(set(MEMORY.REASONS.values())), 10)


if __name__ == "__main__":
    unittest.main()
