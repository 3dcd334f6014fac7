export default [a?.b, class { c = d; }];
