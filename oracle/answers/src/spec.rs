//! Command specifications: named shapes, for the Rust and as document 01's rows.

use std::fmt;
use std::str::FromStr;

use mitex_spec::{
    ArgPattern, ArgShape, CmdShape, CommandSpec, CommandSpecItem, ContextFeature, EnvShape,
};

use crate::Verdicts;
use sheet::Shape;

#[derive(Debug, Clone, Copy, PartialEq, Eq)]
pub enum Class {
    Command,
    Environment,
}

#[derive(Debug, Clone, PartialEq, Eq)]
pub enum Form {
    None,
    Fixed(u8),
    Range(u8),
    Greedy,
    Glob(String),
    Left1,
    Infix,
}

#[derive(Debug, Clone, PartialEq, Eq)]
pub struct Named {
    pub name: String,
    pub class: Class,
    pub form: Form,
}

/// Named shapes; the k-th is shape number k.
#[derive(Debug, Default, Clone, PartialEq, Eq)]
pub struct Spec {
    pub shapes: Vec<Named>,
}

impl Spec {
    /// The number of the shape with this name, 0 if there is none.
    pub fn number(&self, name: &str) -> u32 {
        let at = self.shapes.iter().position(|shape| shape.name == name);
        at.map_or(0, |at| at as u32 + 1)
    }

    /// The specification as the Rust takes it.
    pub fn command_spec(&self) -> CommandSpec {
        let items = self.shapes.iter().rev();
        CommandSpec::new(items.map(|s| (s.name.clone(), s.item())).collect())
    }

    /// The shape rows, whose globs are told by the verdict tables.
    pub fn rows(&self, verdicts: &Verdicts) -> Vec<Shape> {
        self.shapes.iter().map(|s| s.row(verdicts)).collect()
    }
}

impl Named {
    fn item(&self) -> CommandSpecItem {
        let alias = None;
        match self.class {
            Class::Command => CommandSpecItem::Cmd(CmdShape {
                args: self.form.arg_shape(),
                alias,
            }),
            Class::Environment => CommandSpecItem::Env(EnvShape {
                args: self.form.arg_pattern(),
                ctx_feature: ContextFeature::None,
                alias,
            }),
        }
    }

    fn row(&self, verdicts: &Verdicts) -> Shape {
        let (form, value) = match &self.form {
            Form::None => (0, 0),
            Form::Fixed(len) => (1, u32::from(*len)),
            Form::Range(max) => (2, u32::from(*max)),
            Form::Greedy => (3, 0),
            Form::Glob(glob) => (4, verdicts.first(glob)),
            Form::Left1 => (5, 0),
            Form::Infix => (6, 0),
        };
        let class = match self.class {
            Class::Command => 1,
            Class::Environment => 2,
        };
        Shape { class, form, value }
    }
}

impl Form {
    fn arg_shape(&self) -> ArgShape {
        match self {
            Form::Left1 => ArgShape::Left1,
            Form::Infix => ArgShape::InfixGreedy,
            _ => ArgShape::Right {
                pattern: self.arg_pattern(),
            },
        }
    }

    fn arg_pattern(&self) -> ArgPattern {
        match self {
            Form::None => ArgPattern::None,
            Form::Fixed(len) => ArgPattern::FixedLenTerm { len: *len },
            Form::Range(max) => ArgPattern::RangeLenTerm { min: 0, max: *max },
            Form::Greedy => ArgPattern::Greedy,
            Form::Glob(glob) => ArgPattern::Glob {
                pattern: glob.as_str().into(),
            },
            Form::Left1 | Form::Infix => panic!("forms 5 and 6 need class 1"),
        }
    }
}

impl fmt::Display for Form {
    fn fmt(&self, f: &mut fmt::Formatter<'_>) -> fmt::Result {
        match self {
            Form::None => write!(f, "none"),
            Form::Fixed(len) => write!(f, "fixed{len}"),
            Form::Range(max) => write!(f, "range{max}"),
            Form::Greedy => write!(f, "greedy"),
            Form::Glob(glob) => write!(f, "glob:{glob}"),
            Form::Left1 => write!(f, "left1"),
            Form::Infix => write!(f, "infix"),
        }
    }
}

impl fmt::Display for Named {
    fn fmt(&self, f: &mut fmt::Formatter<'_>) -> fmt::Result {
        let class = match self.class {
            Class::Command => "",
            Class::Environment => "env-",
        };
        write!(f, "{}={class}{}", self.name, self.form)
    }
}

impl fmt::Display for Spec {
    fn fmt(&self, f: &mut fmt::Formatter<'_>) -> fmt::Result {
        let shapes: Vec<String> = self.shapes.iter().map(Named::to_string).collect();
        write!(f, "{}", shapes.join(" "))
    }
}

impl FromStr for Form {
    type Err = String;

    fn from_str(text: &str) -> Result<Self, String> {
        let count = |digits: &str| {
            digits
                .parse()
                .map_err(|_| format!("{digits}: not a number from 0 to 255"))
        };
        match text {
            "none" => Ok(Form::None),
            "greedy" => Ok(Form::Greedy),
            "left1" => Ok(Form::Left1),
            "infix" => Ok(Form::Infix),
            _ => match (text.strip_prefix("fixed"), text.strip_prefix("range")) {
                (Some(digits), _) => count(digits).map(Form::Fixed),
                (_, Some(digits)) => count(digits).map(Form::Range),
                _ => match text.strip_prefix("glob:") {
                    Some(glob) => Ok(Form::Glob(glob.to_owned())),
                    None => Err(format!("{text}: no such form")),
                },
            },
        }
    }
}

impl FromStr for Named {
    type Err = String;

    /// `f=fixed2` is a command's shape, `m=env-fixed1` an environment's.
    fn from_str(text: &str) -> Result<Self, String> {
        let (name, form) = text.split_once('=').ok_or("a shape is name=form")?;
        let (class, form) = match form.strip_prefix("env-") {
            Some(form) => (Class::Environment, form),
            None => (Class::Command, form),
        };
        let form = form.parse()?;
        if class == Class::Environment && matches!(form, Form::Left1 | Form::Infix) {
            return Err(format!("{text}: left1 and infix are forms of commands"));
        }
        let name = name.to_owned();
        Ok(Named { name, class, form })
    }
}

impl FromStr for Spec {
    type Err = String;

    /// Shapes with blanks between them.
    fn from_str(text: &str) -> Result<Self, String> {
        let shapes = text.split_whitespace().map(str::parse);
        Ok(Spec {
            shapes: shapes.collect::<Result<_, _>>()?,
        })
    }
}
