//! The styles of many elements by a rule tree.

use super::Arc;
use crate::by_value::{ByValue, FastHash};
use crate::random::Random;
use std::collections::HashMap;
use std::thread;

const ELEMENTS: u64 = 1_000;
const RULES: u32 = 24;

#[derive(Clone, Copy, PartialEq, Eq, Hash)]
enum Declaration {
    FontSize(u32),
    FontWeight(u32),
    BorderWidth(u32),
    BorderColor(u32),
}

type Shared<T> = ByValue<Arc<T>>;

fn shared<T>(value: T) -> Shared<T> {
    ByValue(Arc::new(value))
}

#[derive(PartialEq, Eq, Hash)]
struct Rule {
    specificity: u32,
    declarations: Shared<Vec<Declaration>>,
}

#[derive(PartialEq, Eq, Hash)]
struct Inline {
    declarations: Shared<Vec<Declaration>>,
}

#[derive(Clone, PartialEq, Eq, Hash)]
enum Source {
    First(Shared<Rule>),
    Second(Shared<Inline>),
}

impl Source {
    fn declarations(&self) -> &[Declaration] {
        match self {
            Source::First(rule) => &rule.declarations,
            Source::Second(inline) => &inline.declarations,
        }
    }
}

struct Element {
    rules: Shared<Vec<Shared<Rule>>>,
    inline: Option<Shared<Inline>>,
}

#[derive(Clone)]
struct Font {
    size: u32,
    weight: u32,
}

#[derive(Clone)]
struct Border {
    width: u32,
    color: u32,
}

#[derive(Clone)]
struct Style {
    font: Arc<Font>,
    border: Arc<Border>,
}

impl Style {
    fn declare(&mut self, declaration: Declaration) {
        match declaration {
            Declaration::FontSize(n) => Arc::make_mut(&mut self.font).size = n,
            Declaration::FontWeight(n) => Arc::make_mut(&mut self.font).weight = n,
            Declaration::BorderWidth(n) => Arc::make_mut(&mut self.border).width = n,
            Declaration::BorderColor(n) => Arc::make_mut(&mut self.border).color = n,
        }
    }

    fn cascade(&self, source: &Source) -> Style {
        let mut style = self.clone();
        for declaration in source.declarations() {
            style.declare(*declaration);
        }
        style
    }
}

#[derive(PartialEq, Eq, Hash)]
struct RuleNode {
    parent: Option<u32>,
    source: Source,
}

struct StyleCache {
    root: Arc<Style>,
    nodes: HashMap<RuleNode, u32, FastHash>,
    styles: Vec<Arc<Style>>,
}

impl StyleCache {
    fn new(initial: &Style) -> StyleCache {
        StyleCache {
            root: Arc::new(initial.clone()),
            nodes: HashMap::default(),
            styles: Vec::new(),
        }
    }

    fn at(&self, node: Option<u32>) -> &Arc<Style> {
        match node {
            None => &self.root,
            Some(node) => self.styles.get(node as usize).unwrap_or(&self.root),
        }
    }

    fn child(&mut self, parent: Option<u32>, source: Source) -> Option<u32> {
        let node = RuleNode { parent, source };
        if let Some(number) = self.nodes.get(&node) {
            return Some(*number);
        }
        let style = Arc::new(self.at(parent).cascade(&node.source));
        let number = self.styles.len() as u32;
        self.styles.push(style);
        self.nodes.insert(node, number);
        Some(number)
    }

    fn style(&mut self, element: &Element) -> Arc<Style> {
        let mut node = None;
        for rule in element.rules.iter() {
            node = self.child(node, Source::First(rule.clone()));
        }
        if let Some(inline) = &element.inline {
            node = self.child(node, Source::Second(inline.clone()));
        }
        self.at(node).clone()
    }
}

fn styles(initial: &Style, elements: &[Element]) -> Vec<Arc<Style>> {
    let mut cache = StyleCache::new(initial);
    let mut styles = Vec::new();
    for element in elements {
        styles.push(cache.style(element));
    }
    styles
}

fn styles_in(threads: usize, initial: &Style, elements: &[Element]) -> Vec<Arc<Style>> {
    if threads == 1 {
        return styles(initial, elements);
    }
    let (left, right) = elements.split_at(elements.len() / 2);
    thread::scope(|s| {
        let right = s.spawn(|| styles_in(threads / 2, initial, right));
        let mut styles = styles_in(threads / 2, initial, left);
        styles.append(&mut right.join().unwrap());
        styles
    })
}

fn declaration(number: u32) -> Declaration {
    match number % 4 {
        0 => Declaration::FontSize(number),
        1 => Declaration::FontWeight(number),
        2 => Declaration::BorderWidth(number),
        _ => Declaration::BorderColor(number),
    }
}

fn rule(number: u32) -> Shared<Rule> {
    let declarations = vec![declaration(number), declaration(number * 7 / 4)];
    shared(Rule {
        specificity: number % 3,
        declarations: shared(declarations),
    })
}

/// An element of one of 64 kinds. One of eight has a block of its own.
fn element(rules: &[Shared<Rule>], random: u64) -> Element {
    let matched = |i: &usize| (random >> (i % 6)) & 1 == 1;
    let mut rules: Vec<Shared<Rule>> = (0..rules.len())
        .filter(matched)
        .map(|i| rules[i].clone())
        .collect();
    rules.sort_by_key(|rule| rule.specificity);
    let own = || shared(vec![declaration((random >> 9) as u32 % 64)]);
    let inline = || {
        shared(Inline {
            declarations: own(),
        })
    };
    Element {
        rules: shared(rules),
        inline: ((random >> 6) % 8 == 0).then(inline),
    }
}

fn sum_of(styles: &[Arc<Style>]) -> u64 {
    let mut sum = 0u64;
    for style in styles {
        let font = u64::from(style.font.size ^ style.font.weight);
        let border = u64::from(style.border.width ^ style.border.color);
        sum = sum.rotate_left(1).wrapping_add(font).wrapping_add(border);
    }
    sum
}

#[inline(never)]
pub fn cascade(threads: usize, times: u64) -> u64 {
    let rules: Vec<Shared<Rule>> = (0..RULES).map(rule).collect();
    let mut random = Random::new();
    let elements: Vec<Element> = (0..ELEMENTS)
        .map(|_| element(&rules, random.next() >> 33))
        .collect();
    let initial = Style {
        font: Arc::new(Font {
            size: 16,
            weight: 400,
        }),
        border: Arc::new(Border { width: 0, color: 0 }),
    };
    let mut sum = 0u64;
    for _ in 0..times {
        sum = sum.wrapping_add(sum_of(&styles_in(threads, &initial, &elements)));
    }
    sum
}
