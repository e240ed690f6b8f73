//! A JSON text as a tree that can be changed and written out, also where it is no longer good JSON.

use crate::rng::Rng;

/// A value. A token is written as it stands; so is a member's name, between quotation marks.
#[derive(Clone)]
pub enum Tree {
    Token(Vec<u8>),
    Array(Vec<Tree>),
    Object(Vec<(Vec<u8>, Tree)>),
}

/// A token.
pub fn token(text: impl AsRef<[u8]>) -> Tree {
    Tree::Token(text.as_ref().to_vec())
}

/// A whole number.
pub fn number(value: usize) -> Tree {
    token(value.to_string())
}

/// An array of whole numbers.
pub fn numbers(values: &[usize]) -> Tree {
    Tree::Array(values.iter().map(|&value| number(value)).collect())
}

/// An object of these members.
pub fn object<const N: usize>(members: [(&str, Tree); N]) -> Tree {
    Tree::Object(members.into_iter().map(|(name, value)| (name.as_bytes().to_vec(), value)).collect())
}

impl Tree {
    pub fn get(&self, name: &str) -> Option<&Tree> {
        match self {
            Tree::Object(members) => members.iter().find(|(key, _)| key == name.as_bytes()).map(|(_, value)| value),
            _ => None,
        }
    }

    pub fn get_mut(&mut self, name: &str) -> Option<&mut Tree> {
        match self {
            Tree::Object(members) => members.iter_mut().find(|(key, _)| key == name.as_bytes()).map(|(_, value)| value),
            _ => None,
        }
    }

    /// Puts a member in, or another value in its place.
    pub fn set(&mut self, name: &str, value: Tree) {
        match self.get_mut(name) {
            Some(old) => *old = value,
            None => self.members().push((name.as_bytes().to_vec(), value)),
        }
    }

    pub fn remove(&mut self, name: &str) {
        if let Tree::Object(members) = self {
            members.retain(|(key, _)| key != name.as_bytes());
        }
    }

    /// The members of what becomes an object if it is none.
    pub fn members(&mut self) -> &mut Vec<(Vec<u8>, Tree)> {
        if !matches!(self, Tree::Object(_)) {
            *self = Tree::Object(Vec::new());
        }
        match self {
            Tree::Object(members) => members,
            _ => unreachable!("it is an object now"),
        }
    }

    /// The elements of what becomes an array if it is none.
    pub fn elements(&mut self) -> &mut Vec<Tree> {
        if !matches!(self, Tree::Array(_)) {
            *self = Tree::Array(Vec::new());
        }
        match self {
            Tree::Array(elements) => elements,
            _ => unreachable!("it is an array now"),
        }
    }

    /// The array that is this member, put in if it is not there.
    pub fn list(&mut self, name: &str) -> &mut Vec<Tree> {
        if self.get(name).is_none() {
            self.set(name, Tree::Array(Vec::new()));
        }
        self.get_mut(name).expect("it was put in").elements()
    }

    /// The whole number that this token is.
    pub fn as_number(&self) -> Option<usize> {
        match self {
            Tree::Token(text) => std::str::from_utf8(text).ok()?.parse().ok(),
            _ => None,
        }
    }

    /// How many values there are at and under this one.
    pub fn size(&self) -> usize {
        1 + match self {
            Tree::Token(_) => 0,
            Tree::Array(elements) => elements.iter().map(Tree::size).sum(),
            Tree::Object(members) => members.iter().map(|(_, value)| value.size()).sum(),
        }
    }

    /// The value of that number, counted in the order of the text; it is below the size.
    pub fn nth(&mut self, number: usize) -> &mut Tree {
        if number == 0 {
            return self;
        }
        let mut left = number - 1;
        let children: Vec<&mut Tree> = match self {
            Tree::Token(_) => Vec::new(),
            Tree::Array(elements) => elements.iter_mut().collect(),
            Tree::Object(members) => members.iter_mut().map(|(_, value)| value).collect(),
        };
        for child in children {
            let size = child.size();
            if left < size {
                return child.nth(left);
            }
            left -= size;
        }
        unreachable!("the number is below the size")
    }

    /// Puts the members of every object in another order.
    pub fn shuffle(&mut self, rng: &mut Rng) {
        match self {
            Tree::Token(_) => {}
            Tree::Array(elements) => elements.iter_mut().for_each(|value| value.shuffle(rng)),
            Tree::Object(members) => {
                rng.shuffle(members);
                members.iter_mut().for_each(|(_, value)| value.shuffle(rng));
            }
        }
    }

    /// Writes the text; white space is put between tokens in so many of a hundred places.
    pub fn write(&self, out: &mut Vec<u8>, space: usize, rng: &mut Rng) {
        write_space(out, space, rng);
        match self {
            Tree::Token(text) => out.extend(text),
            Tree::Array(elements) => {
                out.push(b'[');
                for (i, value) in elements.iter().enumerate() {
                    out.extend(if i > 0 { &b","[..] } else { b"" });
                    value.write(out, space, rng);
                }
                out.push(b']');
            }
            Tree::Object(members) => {
                out.push(b'{');
                for (i, (name, value)) in members.iter().enumerate() {
                    out.extend(if i > 0 { &b","[..] } else { b"" });
                    write_space(out, space, rng);
                    out.push(b'"');
                    out.extend(name);
                    out.push(b'"');
                    write_space(out, space, rng);
                    out.push(b':');
                    value.write(out, space, rng);
                }
                write_space(out, space, rng);
                out.push(b'}');
            }
        }
        write_space(out, space, rng);
    }
}

fn write_space(out: &mut Vec<u8>, space: usize, rng: &mut Rng) {
    while space > 0 && rng.percent(space) {
        out.push(*rng.pick(b" \t\n\r"));
    }
}
