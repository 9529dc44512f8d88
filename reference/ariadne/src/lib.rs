//! Stand-in for the crate of the same name: the builder types that `errors.rs`
//! names, holding what they are given and drawing nothing.

use std::marker::PhantomData;

#[derive(Debug, Clone, Copy)]
pub enum Color {
    Red,
}

#[derive(Debug, Clone, Copy)]
pub enum ReportKind {
    Error,
}

#[derive(Debug)]
pub struct Label<S> {
    pub span: S,
    pub message: Option<String>,
    pub color: Option<Color>,
}

impl<S> Label<S> {
    pub fn new(span: S) -> Self {
        Label {
            span,
            message: None,
            color: None,
        }
    }

    pub fn with_message(mut self, message: impl ToString) -> Self {
        self.message = Some(message.to_string());
        self
    }

    pub fn with_color(mut self, color: Color) -> Self {
        self.color = Some(color);
        self
    }
}

#[derive(Debug)]
pub struct Report<'a, S> {
    pub kind: ReportKind,
    pub span: S,
    pub message: Option<String>,
    pub labels: Vec<Label<S>>,
    source: PhantomData<&'a str>,
}

impl<'a, S> Report<'a, S> {
    pub fn build(kind: ReportKind, span: S) -> ReportBuilder<'a, S> {
        ReportBuilder(Report {
            kind,
            span,
            message: None,
            labels: Vec::new(),
            source: PhantomData,
        })
    }
}

pub struct ReportBuilder<'a, S>(Report<'a, S>);

impl<'a, S> ReportBuilder<'a, S> {
    pub fn with_message(mut self, message: impl ToString) -> Self {
        self.0.message = Some(message.to_string());
        self
    }

    pub fn with_label(mut self, label: Label<S>) -> Self {
        self.0.labels.push(label);
        self
    }

    pub fn finish(self) -> Report<'a, S> {
        self.0
    }
}
