<?php
f() = 1;